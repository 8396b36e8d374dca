# Prints how many sectors of a volume of trees hold pages, by docs/VOLUME.md: used.sh VOLUME
numbers() { od -An -v -w4 -t u4 --endian=big -j "$1" -N "$2" "$volume"; }
generation() { od -An -v -t u8 --endian=big -j $(($1 * 4096 + 8)) -N 8 "$volume"; }
volume=$1
root=0
[ $(generation 1) -gt $(generation 0) ] && root=4096
for map in $(numbers $((root + 28)) $((4 * $(numbers $((root + 24)) 4)))); do
    [ "$map" = 0 ] || numbers $((map * 4096)) 4096
done | awk '$1 { used++ } END { print used }'
