# Reports how deep recordings went. Status: 0 where each of them was read and its line written, else 2.
usage='usage: ./milch depth [--files] FILE ...
For each recording a line of four numbers: accepted calls, refused calls, the greatest height of the front task, and its mean
after accepted calls in tenths; behind them the name of the file, where there are several. One FILE may be -, standard input.
       --files    the name behind one FILE too
A sample: ./milch depth sample.recording'

take "$@"
named=${option[--files]-}
[ "${#plain[@]}" -eq 1 ] || named=yes
built=''
status=0
for name in "${plain[@]}"; do
    (readable "$name") || { status=2 && continue; }
    [ -n "$built" ] || build depth
    about="$name: "
    # no line where the recording was not read to its end
    numbers=$(take_input "$name" && run) || { status=2 && continue; }
    if ! [[ $numbers =~ ^[0-9]+(\ [0-9]+){3}$ ]]; then
        say "${about}no report was given"
        status=2
        continue
    fi
    print "$numbers${named:+ $name}"
done
exit $status
