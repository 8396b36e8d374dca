# new_volume.sh VOLUME LAYOUT: makes a volume of 1,024 sectors without files, of trees or of halves.
if [ "$2" = trees ]; then
    exec cobol format "$1" 1024
fi
head -c 4194304 /dev/zero > "$1"
printf 'COBHALF1\0\0\0\0\0\0\0\0\0\0\004\0' | dd of="$1" conv=notrunc 2>/dev/null
