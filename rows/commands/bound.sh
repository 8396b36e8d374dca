# bound.sh COMMAND ..: runs a command as a user whom the permissions of V bind, as they bind all users but root.
if [ -w V ]; then
    exec setpriv --inh-caps=-all --bounding-set=-all "$@"
fi
exec "$@"
