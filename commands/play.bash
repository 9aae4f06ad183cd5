# Plays a recording. Status: 0 where it was played, else 2.
usage='usage: ./milch play FILE
Plays a recording: one line of numbers for each record. FILE may be -, standard input.
A sample: ./milch play sample.recording'

take "$@"
take_input "${plain[0]}"
build player
run
