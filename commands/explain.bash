# Plays a recording and tells the reason under each start. Status: 0 where it was played, else 2.
usage='usage: ./milch explain [--words] FILE
Plays a recording, and under each start tells its refusal, its rule, the place of the task that was found for it and how it
was found: 1 by root, 2 by affinity. FILE may be -, standard input.
       --words    in a sentence too
A sample: ./milch explain --words sample.recording'

take "$@"
take_input "${plain[0]}"
build explain
run ${option[--words]:+--words}
