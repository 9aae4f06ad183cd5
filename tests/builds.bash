# Part of tests/commands: builds, on a copy of the checkout with stand-ins for rt and cargo, which hand out the programs that were
# built here.

mkdir "$work/copy" "$work/kit" "$work/programs" "$work/copy/tools"
cp -R milch commands crates.txt sample.recording bindings "$work/copy"
for crate in crates/*; do # but for what rt keeps in out/, which is large
    mkdir -p "$work/copy/$crate"
    find "$crate" -mindepth 1 -maxdepth 1 ! -name out -exec cp -R -t "$work/copy/$crate" {} +
done
cp -R tools/milch "$work/copy/tools"
for program in player same explain depth load chart milch; do cp "$(kept "$program")" "$work/programs/$program"; done
for program in player same explain depth load chart; do cp .built/"$program"-*.o "$work/programs/$program.o"; done
# It notes each build, reads its standard input, takes a second, and fails beside another one. It says of each crate what rt
# says, of a library on standard output and of a program on standard error, and as a program that is run on nothing ends with a
# status of its own. Two files make it fail, and make it change a source.
cat >"$work/kit/rt" <<STAND_IN
#!/usr/bin/env bash
[ "\$1" != version ] || { cat '$work/kit/version'; exit; }
crate=\${PWD##*/}
echo "began \$1 \$crate" >>'$work/builds'
[ "\$1" = lib ] || exec >&2
not_proved() {
    echo 'rt: model: begins with what a check kept in /elsewhere/crates/model'
    echo 'rt: chose --jobs 2 for model'
    echo 'fn model::after: not proved'
    echo 'logic=not-proved'
    echo 'rt: the library model did not build, so nothing above it was checked'
    exit 1
}
proved() { printf 'rt: chose --jobs 2 for %s\nfn %s::call: proved\ncrate %s: modules loaded=0 checked=9\nlogic=proved functions=1\n' \$1 \$1 \$1; }
[ ! -e '$work/kit/fails' ] || not_proved
mkdir '$work/building' 2>/dev/null || not_proved
[ ! -e '$work/kit/changes' ] || echo '// changed' >>../model/src/lib.rt
cat >/dev/null
sleep 0.5
proved model
sleep 0.5
proved \$crate
mkdir -p out
if [ "\$1" = lib ]; then
    echo archive >"out/lib\$crate.a"
else
    cp "$work/programs/\$crate" "$work/programs/\$crate.o" out/
    echo "rt: running out/\$crate; to give it other input, run that file yourself"
    status=7
fi
rmdir '$work/building'
exit \${status-0}
STAND_IN
cat >"$work/kit/cargo" <<STAND_IN
#!/usr/bin/env bash
echo cargo >>'$work/cargo'
[ ! -e '$work/kit/cargo-fails' ] || { echo 'error: no such crate'; exit 1; }
[ -s "\$MILCHKOMPASS_LIB_DIR/libmilchkompass.a" ] || exit 1
mkdir -p .built/cargo/release
cp '$work/programs/milch' .built/cargo/release/
STAND_IN
chmod +x "$work/kit/rt" "$work/kit/cargo"
echo 'kit one' >"$work/kit/version"
chmod -R a+rX "$work/kit"
export PATH=$work/kit:$PATH
cd "$work/copy" || exit

builds() { # NUMBER NAME
    name=$2 status=0
    [ "$(wc -l <"$work/builds")" -eq "$1" ] || wrong "$1 builds are expected so far, not $(wc -l <"$work/builds")"
    printf 'ok: %s\n' "$name"
}

: >"$work/builds"
: >"$work/cargo"
check 'a missing file is told without a build' 2 '' 'milch: nothing-here: no such file' ./milch play nothing-here
check 'a missing argument is told without a build' 2 '' "$(refused play 'FILE is missing')" ./milch play
check 'missing files are told without a build' 2 '' $'milch: nothing-here: no such file\nmilch: nor-here: no such file' ./milch depth nothing-here nor-here
check 'load with the seed 0, without a build' 2 '' "$(refused load 'SEED is 0 (refusal 32)')" ./milch load sample.recording 0 1
check 'load with too many records, without a build' 2 '' "$(refused load 'RECORDS 1000000000001 is above 1000000000000')" \
    ./milch load sample.recording 1 1000000000001
check 'load of a missing file, without a build' 2 '' 'milch: nothing-here: no such file' ./milch load nothing-here 1 1
check 'show: a missing file, without a build' 2 '' 'milch: nothing-here: no such file' ./milch show nothing-here
check 'show: a missing file of names, without a build' 2 '' 'milch: no-names: no such file' ./milch show sample.recording --names no-names
check 'show: an unknown option, without a build' 2 '' "$(refused show 'no option --fast is known')" ./milch show sample.recording --fast
check 'show --from 0, without a build' 2 '' "$(refused show "--from '0' is no record's number, of which the first is 1")" \
    ./milch show sample.recording --from 0
check 'show --from 7 --to 3, without a build' 2 '' "$(refused show '--to 3 is before --from 7')" ./milch show sample.recording --from 7 --to 3
check 'at: no number, without a build' 2 '' "$(refused at "K 'x' is no record's number, of which the first is 1")" ./milch at sample.recording x
check 'picture without --out, without a build' 2 '' "$(refused picture '--out FILE.html is missing')" ./milch picture sample.recording
builds 0 'no build so far'
many_of() { bash -c ". commands/shared.bash; crates_of $1" | wc -l; }
many=$(many_of player)
happens="milch: proving and building 'player' from its sources, which happens once:"
check 'the first run says how far it is' 0 "$played" \
    "$happens 0 of $many crates are proved"$'\n'"$happens 1 of $many crates are proved"$'\n'"$happens $many of $many crates are proved" \
    ./milch play sample.recording
builds 1 'the first run builds'
check 'the second run is silent' 0 "$played" '' ./milch play sample.recording
find . -exec touch -d '2030-01-01' {} +
check 'with later times' 0 "$played" '' ./milch play sample.recording
rm -rf crates/*/out
check 'without out' 0 "$played" '' ./milch play sample.recording
builds 1 'nothing of that is a build'
one=$(./milch --version)
echo '// changed' >>crates/model/src/lib.rt
two=$(./milch --version)
name='--version: a changed source' status=0
[ "$one" != "$two" ] && [ "${one%sources*}" = "${two%sources*}" ] || wrong "$one and $two"
printf 'ok: %s\n' "$name"
check 'a source below it changed' 0 "$played" "$happens*" ./milch play sample.recording
builds 2 'a changed source is a build'
echo 'kit two' >"$work/kit/version"
check '--version: another kit' 0 "${two/kit one/kit two}" '' ./milch --version
check 'the kit changed' 0 "$played" "$happens*" ./milch play sample.recording
builds 3 'a changed kit is a build'
echo '// changed' >>crates/endings/src/lib.rt
check 'a source that it is not made of changed' 0 "$played" '' ./milch play sample.recording

rm -rf .built crates/*/out
both="./milch play sample.recording & one=\$!; ./milch play sample.recording >/dev/null & two=\$!; ./milch same sample.recording sample.recording >/dev/null; three=\$?; wait \$one && wait \$two && exit \$three"
check 'three at once' 0 "$played" '*waiting for another build*' bash -c "$both"
builds 5 'three at once are two builds, of one program each'
rm -rf .built crates/*/out
check 'out cleared under a build' 0 "$played" '*waiting for another build*' \
    bash -c "./milch play sample.recording >/dev/null & one=\$!; sleep 0.4; rm -rf crates/*/out; ./milch play sample.recording && wait \$one"
builds 6 'the lock is not cleared with out'
check 'nobody waits where it is built' 0 "$played" '' bash -c "exec 9>>.built/lock; flock 9; timeout 30 ./milch play sample.recording 9>&-"

# what runs is not taken away by a clearing of out
check 'out cleared under a running one' 0 "$played" '' bash -c "{ sleep 0.5; rm -rf crates/*/out; cat sample.recording; } | ./milch play -"

: >"$work/kit/fails"
echo '// changed again' >>crates/model/src/lib.rt
check 'what is not proved is not run' 2 '' \
    "$happens*"$'\n'"fn model::after: not proved"$'\n'"rt: the library model did not build, so nothing above it was checked"$'\n'"milch: 'player' could not be proved and built; what rt said stands in .built/player.log" \
    ./milch play sample.recording
rm "$work/kit/fails"
: >"$work/kit/changes"
check 'what changes meanwhile is not run' 2 '' "$happens*"$'\n''milch: the sources changed while they were proved: try again' ./milch play sample.recording
rm "$work/kit/changes"
check 'the first run leaves its input to the program' 0 "$played" "$happens*" bash -c 'cat sample.recording | ./milch play -'

# ---- the library, and the program above it

name='who only plays needs no cargo' status=0
[ ! -s "$work/cargo" ] || wrong 'cargo was not to be run'
printf 'ok: %s\n' "$name"
shown=$work/programs/shown
"$work/programs/milch" show sample.recording >"$shown"
many=$(many_of lent)
library="milch: proving and building the library from its sources, which happens once:"
before=$(wc -l <"$work/builds")
: >"$work/kit/cargo-fails"
check 'what cargo cannot build is not run' 2 '' \
    "$library*error: no such crate"$'\n'"milch: 'milch' could not be built; what cargo said stands in .built/milch.log" ./milch show sample.recording
rm "$work/kit/cargo-fails"
check 'the first build of the library says how far it is' 0 "$shown" \
    "$library 0 of $many crates are proved"$'\n'"$library 1 of $many crates are proved"$'\n'"$library $many of $many crates are proved"$'\n'"milch: building 'milch' by cargo" \
    ./milch show sample.recording
builds $((before + 2)) 'the library is proved and made, twice'
check 'the second run of it is silent' 0 "$shown" '' ./milch show sample.recording
echo '// changed' >>tools/milch/src/main.rs
mkdir "$work/no-cargo"
for tool in bash env cat dirname readlink rt awk sort find xargs sha256sum cut sed grep cc mkdir flock rm cp mv wc tee tail; do
    ln -s "$(type -P "$tool")" "$work/no-cargo/$tool"
done
check 'without cargo' 2 '' "milch: 'cargo' cannot be run: README.md says what is needed" env PATH="$work/no-cargo" ./milch show sample.recording
check 'play without cargo' 0 "$played" '' env PATH="$work/no-cargo" ./milch play sample.recording
rm "$work/no-cargo/rt"
check 'without rt' 2 '' "milch: the kit's command 'rt' cannot be run: README.md names the kit" env PATH="$work/no-cargo" ./milch play sample.recording
check '--version without rt' 2 '' "milch: the kit's command 'rt' cannot be run: README.md names the kit" env PATH="$work/no-cargo" ./milch --version

# ---- a number that cannot be had

printf '#!/bin/sh\nexit 1\n' >"$work/kit/sha256sum" && chmod +x "$work/kit/sha256sum"
check 'sha256sum fails' 2 '' 'milch: the sources cannot be read and numbered (by find, sort and sha256sum)' ./milch play sample.recording
check '--version where sha256sum fails' 2 '' 'milch: the sources cannot be read and numbered (by find, sort and sha256sum)' ./milch --version
printf '#!/bin/sh\n[ $# -eq 0 ] || exit 1\nexec %s\n' "$(PATH=${PATH#*:} type -P sha256sum)" >"$work/kit/sha256sum"
check 'sha256sum fails on files alone' 2 '' 'milch: the sources cannot be read and numbered (by find, sort and sha256sum)' ./milch play sample.recording
rm "$work/kit/sha256sum"

# ---- what may not be read or written: by nobody, where this is root

./milch play sample.recording >/dev/null 2>&1
./milch depth sample.recording >/dev/null 2>&1
drop=()
[ "$(id -u)" -ne 0 ] || drop=(setpriv --reuid=65534 --regid=65534 --clear-groups)
chmod -R a+rX,a-w .
cp sample.recording "$work/secret" && chmod 000 "$work/secret"
check 'play a file that may not be read' 2 '' "milch: $work/secret may not be read" "${drop[@]}" ./milch play "$work/secret"
check 'depth of one that may not be read, among several' 2 '7 1 3 14 sample.recording' "milch: $work/secret may not be read" \
    "${drop[@]}" ./milch depth "$work/secret" sample.recording
check 'an unwritable checkout, built' 0 "$played" '' "${drop[@]}" ./milch play sample.recording
chmod u+w . .built && rm -rf .built && chmod a-w .
check 'an unwritable checkout, not built' 2 '' "milch: 'player' has yet to be built from these sources, and $PWD cannot be written" \
    "${drop[@]}" ./milch play sample.recording
chmod u+w . && mkdir .built && chmod 777 .built && chmod a-w .
check 'a crate that rt cannot work in, not built' 2 '' "milch: 'player' has yet to be built from these sources, and $PWD cannot be written" \
    "${drop[@]}" ./milch play sample.recording
