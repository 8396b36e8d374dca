#!/bin/sh
# Posts the postings of a night: nightly.sh VOLUME YYMMDD POSTINGS REPORT
#
# A run that is stopped is started again, and so is a run that finds the volume in use: after WAIT seconds (60), and up to TRIES times
# (10). The host may also start this script again, with the same arguments. REPORT is the report of the run that reached its end. The
# exit status is that of the last run.
set -u
job=$(dirname "$0")/job.sh
volume=$1
night=$2
postings=$3
report=$4

tries=1
while :; do
    sh "$job" nightly "$volume" --date "$night" < "$postings" > "$report.new"
    status=$?
    if [ $status -eq 0 ]; then
        mv "$report.new" "$report"
        exit
    fi
    # Below 128 the run ended by itself. Only a volume in use is worth another run.
    [ $status -gt 128 ] || grep -qx "refused 85" "$volume.errors" || exit $status
    [ $tries -lt "${TRIES:-10}" ] || exit $status
    tries=$((tries + 1))
    sleep "${WAIT:-60}"
done
