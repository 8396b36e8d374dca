#!/bin/sh
# Runs a COBOL program as a job: job.sh PROGRAM VOLUME [OPTION OF cobol run ..] < INPUT > OUTPUT
#
# PROGRAM.cob is in the folder of this script, and the image in the folder of the volume. The first job makes the volume, of SECTORS
# sectors (1024). After a whole run VOLUME.saved is a copy of the volume. Otherwise standard error says what to do. The exit status is
# that of the command that ended the job. The program is that of the variable COBOL, or `cobol` on the PATH, or that of the repository.
set -u
cobol=${COBOL:-$(command -v cobol || echo "$(dirname "$0")/../cobol")}
program=$1
volume=$2
shift 2
source=$(dirname "$0")/$program.cob
image=$(dirname "$volume")/$program.image
errors=$volume.errors

advise() {
    echo "$program: $1" >&2
}

# The new volume has its name only when it is whole.
if [ ! -e "$volume" ]; then
    "$cobol" format "$volume.new" "${SECTORS:-1024}" && mv "$volume.new" "$volume" || exit
fi
"$cobol" compile "$source" "$image" || exit
"$cobol" run "$image" "$volume" "$@" 2> "$errors"
status=$?
cat "$errors" >&2
case $status:$(cat "$errors") in
0:*)
    flock -s "$volume" cp "$volume" "$volume.saved.new" && sync "$volume.saved.new" && mv "$volume.saved.new" "$volume.saved" || exit
    ;;
3:*) advise "the program has a fault at this line; the statements before it are done" ;;
"4:refused 80") advise "the disk or the output failed; read the host's log, mend it, and run the job again" ;;
"4:refused 81") advise "the volume is full; make a larger one, and run all jobs again that fill it" ;;
"4:refused 82") advise "something else changed the volume; put $volume.saved in its place, and run the jobs since then" ;;
"4:refused 83") advise "memory ran out; run the job again when there is more" ;;
"4:refused 85") advise "the volume is in use, or can't be opened" ;;
5:*) advise "the budget was used up; the statements so far are done" ;;
*) advise "the run was stopped; run the job again with the same input" ;;
esac
exit $status
