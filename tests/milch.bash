# Part of tests/commands: the door itself, and what an agent sees. The commands that README.md and docs/COMMANDS.md show print what
# stands below them there, and the program's statuses come through.

texts=$PWD/tools/milch/src/usage
says="'./milch --help' says what it takes"
check 'milch --help' 0 "$texts/whole.txt" '' ./milch --help
check 'milch -h' 0 "$texts/whole.txt" '' ./milch -h
check 'milch --help and more' 2 '' "milch: 'show' is too much: --help stands alone, and behind a command; $says" ./milch --help show
check 'milch without a command' 2 '' "$(cat "$texts/whole.txt")" ./milch
check 'milch with an unknown command' 2 '' "milch: no command 'frob' is known; $says" ./milch frob "$sample"
check 'milch with an unknown option' 2 '' "milch: no option --frob is known; $says" ./milch --frob
check 'milch --help onto a full disk' 2 '' 'milch: standard output cannot be written' bash -c './milch --help >/dev/full'
number=$(printf '[0-9a-f]%.0s' {1..64})
./milch --version >"$work/version" 2>&1
name='milch --version' status=$?
# shellcheck disable=SC2053
[[ $(cat "$work/version") == "milch 0.1.0"$'\n'"kit $(rt version)"$'\n'sources\ $number ]] || wrong "not $(cat "$work/version")"
printf 'ok: %s\n' "$name"
check 'milch --version and more' 2 '' "milch: 'more' is too much: --version stands alone; $says" ./milch --version more
name='one command at the root' status=0
[ "$(find . -maxdepth 1 -type f -perm /111)" = ./milch ] || wrong "not $(find . -maxdepth 1 -type f -perm /111)"
printf 'ok: %s\n' "$name"
name='README is short' status=0
[ "$(wc -c <README.md)" -le 10240 ] || wrong "it has $(wc -c <README.md) bytes"
printf 'ok: %s\n' "$name"
name='every command is in the help' status=0
for asked in show at picture play explain same diff depth load chart text bytes fronts panels install; do
    grep -q "^       ./milch $asked " "$texts/whole.txt" || wrong "$asked is not"
done
printf 'ok: %s\n' "$name"

# ---- what README.md and docs/COMMANDS.md show, in a folder of its own

mkdir "$work/examples"
for found in milch crates sample.recording prices.recording prices.names; do ln -s "$PWD/$found" "$work/examples/$found"; done
# The lines below a command in a document.
shown_below() { # DOCUMENT COMMAND
    example="    \$ $2" awk '$0 == ENVIRON["example"] { on = 1; next } on && (!/^    / || /^    \$ /) { exit } on { print substr($0, 5) }' "$1"
}
examples() { # DOCUMENT
    local commands example expected wanted
    mapfile -t commands < <(sed -n 's/^    \$ //p' "$1")
    for example in "${commands[@]}"; do
        expected=$(shown_below "$1" "$example")
        wanted=0
        case $expected in 'apart after '* | *'the first difference is '*) wanted=1 ;; esac
        check "$1: $example" "$wanted" "$expected" '' bash -c "cd '$work/examples' && $example"
    done
    printf '%s\n' "${commands[@]}" >>"$work/examples.run"
}
examples README.md
examples docs/COMMANDS.md
name='every command has an example that is run' status=0
for asked in show at picture play explain same diff depth load chart text bytes fronts panels install; do
    grep -q "\(^\|| \)./milch $asked " "$work/examples.run" || wrong "$asked has none"
done
printf 'ok: %s\n' "$name"

# ---- the program's statuses come through

check 'milch text and bytes' 0 "$sample" '' bash -c "./milch text '$sample' | ./milch bytes -"
check 'milch diff of one with itself' 0 $'no record differs, of 8\nthe endings are alike' '' ./milch diff "$sample" "$sample"
check 'milch picture' 0 '' '' ./milch picture "$sample" --out "$work/sample.html"
[ -s "$work/sample.html" ] || { name='milch picture' status=0; wrong 'it writes a page'; }
for asked in show at text bytes diff picture panels; do
    check "milch $asked --help" 0 "$texts/$asked.txt" '' ./milch $asked --help
    check "milch $asked -h" 0 "$texts/$asked.txt" '' ./milch $asked -h
done
check 'milch show without a file' 2 '' "$(refused show 'FILE is missing')" ./milch show
check 'milch show with an unknown option' 2 '' "$(refused show 'no option --fast is known')" ./milch show "$sample" --fast
check 'milch show with an option of no command' 2 '' "$(refused show 'no option --out is known')" ./milch show "$sample" --out page
check 'milch show with a number twice' 2 '' "$(refused show '--to is given twice')" ./milch show "$sample" --to 3 --to 4
check 'milch show without a number' 2 '' "$(refused show 'behind --from K is missing')" ./milch show "$sample" --from
check 'milch show --from 08' 0 "$(./milch show "$sample" | tail -n 1)" '' ./milch show "$sample" --from 08 --to 008
check 'milch show of a missing file' 2 '' 'milch: nothing-here: no such file' ./milch show nothing-here
check 'milch show of a folder' 2 '' 'milch: crates is a directory, and no file' ./milch show crates
check 'milch show with standard input twice' 2 '' "$(refused show 'standard input can be read once only')" ./milch show - --names -
check 'milch show with standard input closed' 2 '' 'milch: standard input is closed' bash -c './milch show - <&-'
check 'milch show onto a full disk' 2 '' 'milch: standard output*' bash -c "./milch show '$sample' >/dev/full"
check 'milch show into a closed pipe' 0 '' '' \
    bash -c "{ sleep 0.5; ./milch show '$sample'; echo \$? >'$work/status'; } | true; exit \$(cat '$work/status')"
check 'milch picture to standard output' 2 '' "$(refused picture '--out - is no file to be written')" ./milch picture "$sample" --out -
check 'milch at without a number' 2 '' "$(refused at 'K is missing')" ./milch at "$sample"
check 'milch at a record beyond the last' 2 '' "milch: $sample has no record 9: the last is 8" ./milch at "$sample" 9
check 'milch panels of no text' 2 '' "milch: -:1:1: expected step, record or back at the start of a line, not 'add'" \
    bash -c 'echo add 3 | ./milch panels -'
check 'milch panels of two files' 2 '' "$(refused panels "'second' is one argument too many")" ./milch panels first second
check 'milch panels of a missing file' 2 '' 'milch: nothing-here: no such file' ./milch panels nothing-here
check 'milch panels onto a full disk' 2 '' 'milch: standard output*' bash -c 'echo back | ./milch panels - >/dev/full'
check 'milch bytes of no text' 2 '' 'milch: -:1:1: expected *' bash -c 'echo start 0 | ./milch bytes -'
