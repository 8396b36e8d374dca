# damage_chains.sh PUT CHAINS: damages the volume SOUND in several ways by the script PUT, and prints what a run of the image SHOWS and
# `list` find. CHAINS has the lines of chain_sectors.sh.
{ read -r first first_page last last_page && read -r other other_page end end_page; } < "$2"
put=$1
try() {
    echo "$1"
    cp SOUND V && sh "$put" V "$2" "$3" "$4" && cp V before
    cobol run SHOWS V 2>&1 | sed 's/^/run: /'
    cobol list V 2>&1 | sed 's/^/list: /'
    cmp V before
}
page() {
    printf '\\0\\0\\0\\%o' "$1"
}
try "returns to its first page" "$first" 4 "$(page "$first_page")"
try "ends at its first page" "$first" 4 '\0\0\0\0'
try "goes on after its last page" "$last" 4 "$(page "$end_page")"
try "goes into the other chain" "$other" 4 "$(page "$last_page")"
try "first page of another kind" "$first" 0 '\001'
try "last page of another kind" "$last" 0 '\001'
