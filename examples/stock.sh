#!/bin/sh
# Enters movements of the stock, and lists it: stock.sh VOLUME < MOVEMENTS > LIST
exec sh "$(dirname "$0")/job.sh" stock "$1"
