# Part of tests/commands: the flag chart. What is expected of the program is what a script from the request's words prints.

name='the chart that is expected is that of the words' status=0
tests/flag_chart.py | cmp - crates/chart/stdout || wrong 'it differs'
printf 'ok: %s\n' "$name"
takes="'./milch chart --help' says what it takes"
modes='standard, single-top, single-task and single-instance'
check 'chart' 0 "$PWD/crates/chart/stdout" '' ./milch chart
check 'chart --help' 0 "$PWD/tools/milch/src/usage/chart.txt" '' ./milch chart --help
check 'chart with an argument' 2 '' "milch: chart: 'x' is one argument too many; $takes" ./milch chart x
check 'chart with an unknown option' 2 '' "milch: chart: no option --frob is known; $takes" ./milch chart --frob
check 'chart --mode without --words' 2 '' "milch: chart: --mode is there for --words, which is missing; $takes" ./milch chart --mode standard
check 'chart with no launch mode' 2 '' "milch: chart: --mode '4' is none of $modes; $takes" ./milch chart --words --mode 4
check 'chart --words' 0 512 '' bash -c './milch chart --words | wc -l'
check 'chart --words of a mode' 0 128 '' bash -c "./milch chart --mode single-top --words | grep -c '^[0-9]* [0-9]* single-top'"
check 'chart onto a full disk' 2 '' 'milch: standard output: No space left on device' bash -c './milch chart >/dev/full'
check 'chart --words onto a full disk' 2 '' 'milch: standard output: No space left on device' bash -c './milch chart --words >/dev/full'
check 'chart with standard output closed' 2 '' 'milch: standard output is closed' bash -c './milch chart >&-'
check 'chart into a closed pipe' 0 '' '' bash -c "{ sleep 0.5; ./milch chart; echo \$? >'$work/status'; } | true; exit \$(cat '$work/status')"
