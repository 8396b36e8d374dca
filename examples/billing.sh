#!/bin/sh
# Enters the entries of a day, and shows the dunning list: billing.sh VOLUME YYMMDD < ENTRIES > LIST
exec sh "$(dirname "$0")/job.sh" billing "$1" --date "$2"
