#!/bin/sh
# Runs the program `cobol` with these arguments: the proved program if ./prove has built it, or else one that is built without proof.
# Its exit status is the program's, or 70 if no program can be built.
set -eu
root=$(dirname "$(readlink -f "$0")")
program=$("$root/tools/find-program") || exit 70
case ${1-} in
--version | -V)
    "$program" "$@"
    case $program in
    */.quick/*) echo "built without proof" ;;
    *) echo "proved" ;;
    esac
    ;;
*) exec "$program" "$@" ;;
esac
