# Do two recordings end alike? Status: 0 alike, 1 apart, each after it was written; 2 where it could not be told.
usage='usage: ./milch same FIRST SECOND
Do two recordings end alike? One of them may be -, standard input.
Status: 0 alike, 1 apart, 2 where it could not be told.
A sample: ./milch same sample.recording sample.recording'

take "$@"
readable "${plain[0]}"
readable "${plain[1]}"
build same
verdict=$(run "$(path_of "${plain[0]}")" "$(path_of "${plain[1]}")") || exit 2
case $verdict in
    alike) status=0 ;;
    'apart after '*) status=1 ;;
    *) fail 'no verdict was given' ;;
esac
print "$verdict"
exit $status
