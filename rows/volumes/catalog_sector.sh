# catalog_sector.sh VOLUME ROOT: prints the sector of the catalog's root page, by the root in sector ROOT of a volume of trees.
number() {
    od -An -tu1 -j "$2" -N 4 "$1" | awk '{ print (($1 * 256 + $2) * 256 + $3) * 256 + $4 }'
}
page=$(number "$1" $(($2 * 4096 + 20)))
number "$1" $(($(number "$1" $(($2 * 4096 + 28))) * 4096 + 4 * page))
