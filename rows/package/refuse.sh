# Without --unproved a program that ./prove didn't build is refused. Where ./prove has built one, its package doesn't speak of proofs
# that are missing: refuse.sh TOOL
"$1" packages > path 2> reason
status=$?
refused='^make-package: there is no proved program that is as new as its sources; '
case $status in
0) dpkg-deb --field "$(cat path)" Version Description | grep -iqE 'unproved|without proof' || echo right ;;
70) grep -q "$refused" reason && echo right ;;
*) echo "the exit status is $status" ;;
esac
