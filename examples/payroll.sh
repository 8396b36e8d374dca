#!/bin/sh
# Pays the employees for a week: payroll.sh VOLUME < CARDS > LIST
exec sh "$(dirname "$0")/job.sh" payroll "$1"
