# chain_sectors.sh VOLUME ROOT: for each chain of two pages prints the sector and the page of the first, and those of the last, by the root in
# sector ROOT of a volume of trees. The chains are in the order of their records' first bytes.
number() {
    od -An -tu1 -j "$2" -N 4 "$1" | awk '{ print (($1 * 256 + $2) * 256 + $3) * 256 + $4 }'
}
map=$(number "$1" $(($2 * 4096 + 28)))
od -An -tu1 -v -w4 -j $((map * 4096)) -N 4096 "$1" | awk '{ print NR - 1, (($1 * 256 + $2) * 256 + $3) * 256 + $4 }' > pages
od -An -tu1 -v -w4096 "$1" | awk '
    NR == FNR { page[$2] = $1; sector[$1] = $2; next }
    $1 == 3 && (FNR - 1) in page { to = (($5 * 256 + $6) * 256 + $7) * 256 + $8; if (to) print $17, FNR - 1, page[FNR - 1], sector[to], to }' pages - |
    sort -n | cut -d ' ' -f 2-
