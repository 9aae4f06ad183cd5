# Makes a load. Status: 0 where it was written, else 2.
usage='usage: ./milch load FILE SEED RECORDS [--records] [--state]
Writes a recording that everybody can make again: the table that FILE begins with, and so many records made from a seed. FILE is a
table or a recording, of which the table alone is taken; it may be -, standard input. SEED is 1 to 4294967295 and RECORDS 0 to
1000000000000, in base ten or in hex behind 0x.
       --records    the records alone, without the table
       --state      the state after the last record alone, in hex: a load from this seed goes on there
A sample: ./milch load sample.recording 1 1000'

take "$@"
[ -z "${option[--records]-}" ] || [ -z "${option[--state]-}" ] || refuse '--records and --state are given, of which one is taken'
numeral SEED "${plain[1]}"
seed=$value
numeral RECORDS "${plain[2]}"
records=$value
take_input "${plain[0]}"
build load
run "$seed" "$records" ${option[--records]:+--records} ${option[--state]:+--state}
