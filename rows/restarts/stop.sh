# Stops a program after each statement that changes a file, on a copy of the volume BEFORE, and runs it again with the same input. The
# second run has to show what a run without a stop shows. Prints the budgets after which it doesn't, and then how many volumes were run
# again. It tries each second budget: the number of volumes says whether that is enough.
# Called as: stop.sh PROGRAM BEFORE INPUT OUTPUT [--date YYMMDD]
program=$1 before=$2 input=$3 output=$4
shift 4
cobol compile "$program" I || exit
cp "$before" last
budget=0 count=0
while
    budget=$((budget + 2))
    cp "$before" V
    cobol run I V --budget $budget "$@" < "$input" > /dev/null 2>&1
    [ $? = 5 ]
do
    # (only a statement on a file changes the volume)
    cmp -s V last && continue
    cp V last
    count=$((count + 1))
    cobol run I V "$@" < "$input" 2>&1 | cmp -s - "$output" || echo "another output after a stop by the budget $budget"
done
echo "$count volumes"
