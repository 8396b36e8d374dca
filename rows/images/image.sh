# Bytes of images (docs/IMAGE.md), for `. ./image.sh`. Numbers are decimal.
n1() { for n in "$@"; do printf "\\$(printf %03o "$n")"; done; }
n4() { for n in "$@"; do n1 $((n / 16777216)) $((n / 65536 % 256)) $((n / 256 % 256)) $((n % 256)); done; }
n8() { for n in "$@"; do n4 0 "$n"; done; }

# Instructions.
tick() { n1 1; n4 "${1:-1}"; }
show() { n1 2; }
stop() { n1 3; }
count() { n1 4; n8 "$1" 1; }
turn() { n1 5; n8 "$1" "$2"; }
perform() { n1 11; n4 1; n8 "$1" "$2"; }
back() { n1 12; n8 "$1"; }
place() { n1 16; n4 "$1"; }
push() { n1 18; }
number() { n1 19; n4 "$1"; }
append() { n1 23; }
text() { n1 24; n4 "$1"; }
fixed() { n1 70; n4 "$1"; }
counted() { n1 71; }
rest() { n1 72; }

# instructions TEXT: the table of the instructions between commas.
instructions() (
    IFS=,
    set -f
    set -- $1
    n8 $#
    IFS=' '
    for one in "$@"; do $one; done
)

# code STARTS INSTRUCTIONS: an image with the text A and no other data.
code() {
    printf COBIMG01
    n8 0 0 0 0 1 1
    printf A
    n8 0 0 $(echo "$1" | wc -w) $1
    instructions "$2"
}

# parts MARK INSTRUCTIONS: an image with 01 T PIC X(5) VALUE "ABCDE" and the numbers 0 to 6. Its items are T, two characters of T, and T as
# a number of five digits.
parts() {
    printf '%s' "$1"
    n8 1 5
    printf ABCDE
    n8 3
    for size in 5 2; do n1 4; n4 $size; n1 0; n8 0; done
    n1 9 5 0 1; n4 5; n1 0; n8 0
    n8 7
    for value in 0 1 2 3 4 5 6; do n1 0; n8 0 $value; n1 0; done
    n8 0 0 0 0 0
    instructions "$2"
}

# verdict IMAGE: the number by which a run refuses the image, or 0.
verdict() {
    cobol run "$1" V --budget 1000 > shown 2> reason
    sed -n 's/^refused //p' reason | grep . || echo 0
}
