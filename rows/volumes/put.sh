# put.sh VOLUME SECTOR PLACE BYTES: writes bytes into a sector, in the notation of printf.
printf "$4" | dd of="$1" bs=1 seek=$(($2 * 4096 + $3)) conv=notrunc 2>/dev/null
