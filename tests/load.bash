# Part of tests/commands: loads. The bytes and states are those that the request gives for the table of the sample.

head -c 14 "$sample" >"$work/table"
bytes '\4\2\x60\0\0\0\4\2\x6c\2\0\0' two-records
cat "$work/table" "$work/two-records" >"$work/two-made"
bytes '\1\2\x3c\2\x80\0' ones-record
check 'load, seed 1' 0 "$work/two-made" '' ./milch load "$sample" 1 2
check 'load of a table alone' 0 "$work/two-made" '' ./milch load "$work/table" 1 2
check 'load of -' 0 "$work/two-made" '' bash -c "cat '$sample' | ./milch load - 1 2"
check 'load of <(..)' 0 "$work/two-made" '' bash -c "./milch load <(cat '$work/table') 1 2"
check 'load of numbers with zeros in front, and in hex' 0 "$work/two-made" '' \
    ./milch load "$sample" 0x00000000000000000001 000000000000000000002
check 'load, the records alone' 0 "$work/two-records" '' ./milch load "$sample" 1 2 --records
check 'load, the state alone' 0 0x6c1b0001 '' ./milch load "$sample" 1 2 --state
check 'load, the state after one record' 0 0x60180001 '' ./milch load --state "$sample" 1 1
check 'load, seed ffffffff' 0 "$work/ones-record" '' ./milch load "$sample" 4294967295 1 --records
check 'load, seed ffffffff in hex' 0 0x3ff7ffff '' ./milch load "$sample" 0xFFffffff 1 --state
check 'load of no records' 0 "$work/table" '' ./milch load "$sample" 7 0
check 'load of no records alone' 0 '' '' ./milch load "$sample" 7 0 --records
check 'load, the state after no record' 0 0x00000007 '' ./milch load "$sample" 7 0 --state

# in two parts, over blocks of 10,000 records
./milch load "$sample" 0xabcdef 45678 >"$work/load"
state=$(./milch load "$sample" 0xabcdef 12345 --state)
{ ./milch load "$sample" 0xabcdef 12345 && ./milch load "$sample" "$state" 33333 --records; } >"$work/in-parts"
check 'load in two parts is the load in one' 0 '' '' cmp "$work/load" "$work/in-parts"
check 'load in two parts: the state' 0 "$(./milch load "$sample" 0xabcdef 45678 --state)" '' \
    ./milch load "$sample" "$state" 33333 --state
check 'load: its length' 0 $((14 + 6 * 45678)) '' stat -c %s "$work/load"
check 'load: a recording that is played, and none of 3, 4, 9' 0 '45678 some-accepted' '' bash -c \
    "./milch play '$work/load' |
        awk '\$2 == 3 || \$2 == 4 || \$2 == 9 { exit 1 } \$2 == 0 { some = \"some-accepted\" } END { print NR, some }'"

# ---- arguments

check 'load without an argument' 2 '' "$(refused load 'FILE is missing')" ./milch load
check 'load without a seed' 2 '' "$(refused load 'SEED is missing')" ./milch load "$sample"
check 'load without a number of records' 2 '' "$(refused load 'RECORDS is missing')" ./milch load "$sample" 1
check 'load with four arguments' 2 '' "$(refused load "'4' is one argument too many")" ./milch load "$sample" 1 2 4
check 'load with the seed 0' 2 '' "$(refused load 'SEED is 0 (refusal 32)')" ./milch load "$sample" 0 2
check 'load with the seed 0x0' 2 '' "$(refused load 'SEED is 0 (refusal 32)')" ./milch load "$sample" 0x0 2
check 'load with a seed too large' 2 '' "$(refused load 'SEED 4294967296 is above 4294967295')" ./milch load "$sample" 4294967296 2
check 'load with a seed far too large' 2 '' "$(refused load 'SEED 0x10000000000000001 is above 4294967295')" \
    ./milch load "$sample" 0x10000000000000001 2
check 'load with too many records' 2 '' "$(refused load 'RECORDS 1000000000001 is above 1000000000000')" \
    ./milch load "$sample" 1 1000000000001
check 'load with far too many records' 2 '' "$(refused load 'RECORDS 18446744073709551617 is above 1000000000000')" \
    ./milch load "$sample" 1 18446744073709551617
for text in one 1e3 1.5 0x 0xg 1x ' 1' '' +1; do
    check "load with the seed '$text'" 2 '' "$(refused load "SEED '$text' is no number")" ./milch load "$sample" "$text" 2
    check "load of '$text' records" 2 '' "$(refused load "RECORDS '$text' is no number")" ./milch load "$sample" 1 "$text"
done
check 'load with a seed below 0' 2 '' "$(refused load 'no option -1 is known')" ./milch load "$sample" -1 2
check 'load with - for the seed' 2 '' "$(refused load "SEED '-' is no number")" ./milch load - - 2
check 'load, records and state' 2 '' "$(refused load '--records and --state are given, of which one is taken')" \
    ./milch load "$sample" 1 2 --records --state

# ---- what cannot be read, is refused, or cannot be written

check 'load of a missing file' 2 '' 'milch: nothing-here: no such file' ./milch load nothing-here 1 2
check 'load of a directory' 2 '' 'milch: crates is a directory, and no file' ./milch load crates 1 2
check 'load with standard input closed' 2 '' 'milch: standard input is closed' bash -c './milch load - 1 2 <&-'
check 'load of what is open for writing alone' 2 '' 'milch: input: Bad file descriptor' bash -c "./milch load - 1 2 0>'$work/none'"
check 'load under no table' 2 '' 'milch: load refused: 1' bash -c './milch load - 1 2 </dev/null'
check 'load under a cut table' 2 '' 'milch: load refused: 1' ./milch load "$work/cut-table" 1 2
check 'load under a refused table' 2 '' 'milch: load refused: 2' ./milch load "$work/refused-table" 1 2
check 'load under a refused table, no records' 2 '' 'milch: load refused: 2' ./milch load "$work/refused-table" 1 0 --records
check 'load under a refused table, its state' 2 '' 'milch: load refused: 2' ./milch load "$work/refused-table" 1 2 --state
full='milch: standard output: No space left on device'
check 'load onto a full disk' 2 '' "$full" bash -c "./milch load '$sample' 1 2 >/dev/full"
check 'load, the records alone, onto a full disk' 2 '' "$full" bash -c "./milch load '$sample' 1 20000 --records >/dev/full"
check 'load, the state alone, onto a full disk' 2 '' "$full" bash -c "./milch load '$sample' 1 2 --state >/dev/full"
check 'load with standard output closed' 2 '' 'milch: standard output is closed' bash -c "./milch load '$sample' 1 2 >&-"
closed="./milch load '$sample' 1 1000000 | head -c 14; exit \${PIPESTATUS[0]}"
check 'load into a closed pipe' 0 "$work/table" '' bash -c "$closed"
check 'load into a closed pipe, SIGPIPE ignored' 0 "$work/table" '' bash -c "trap '' PIPE; $closed"
