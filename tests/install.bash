# Part of tests/commands: a folder that `install` made, moved, on a machine with neither kit nor cargo. The first was made in
# $work/examples by docs/COMMANDS.md.

mv "$work/examples/milchkompass" "$work/moved here"
moved="$work/moved here"
mkdir "$work/tools"
for tool in bash env cat dirname readlink; do ln -s "$(type -P "$tool")" "$work/tools/$tool"; done
bare=(env -i PATH="$work/tools")
there=("${bare[@]}" "$moved/bin/milch")

# A program as the checkout keeps it.
kept() { # PROGRAM
    local found
    for found in .built/"$1"-*; do [ ! -f "$found" ] || [[ $found == *.o ]] || echo "$found"; done
}

name='install: nothing is needed of a C library' status=0
for program in player explain depth load same chart milch; do
    readelf -lW "$moved/lib/milchkompass/programs/$program" >"$work/out" || wrong "$program is no program"
    ! grep -q INTERP "$work/out" || wrong "$program is linked dynamically"
done
printf 'ok: %s\n' "$name"
name='install: the programs are those of the checkout' status=0
for recording in crates/stored/data/*; do
    for program in player explain depth; do
        "$(kept "$program")" <"$recording" >"$work/out" 2>"$work/err"
        "$moved/lib/milchkompass/programs/$program" <"$recording" 2>"$work/err.there" | cmp - "$work/out" && cmp "$work/err" "$work/err.there" ||
            wrong "$program differs on $recording"
    done
done
printf 'ok: %s\n' "$name"
check 'installed: play' 0 "$played" '' "${there[@]}" play "$sample"
check 'installed: play -' 0 "$played" '' bash -c "env -i PATH='$work/tools' '$moved/bin/milch' play - <'$sample'"
check 'installed: explain' 0 "$in_words" '' "${there[@]}" explain --words "$sample"
check 'installed: depth' 0 "7 1 3 14 $sample" '' "${there[@]}" depth --files "$sample"
check 'installed: load' 0 0x6c1b0001 '' "${there[@]}" load "$sample" 1 2 --state
check 'installed: chart' 0 "$PWD/crates/chart/stdout" '' "${there[@]}" chart
check 'installed: same, alike' 0 alike '' "${there[@]}" same "$sample" "$sample"
check 'installed: same, apart' 1 "$apart" '' "${there[@]}" same "$first" "$second"
check 'installed: show' 0 "$(./milch show prices.recording --names prices.names)" '' "${there[@]}" show prices.recording --names prices.names
check 'installed: at' 0 "$(./milch at prices.recording 5)" '' "${there[@]}" at prices.recording 5
check 'installed: diff' 1 "$(./milch diff "$first" "$second")" '' "${there[@]}" diff "$first" "$second"
check 'installed: text' 0 "$(./milch text "$sample")" '' "${there[@]}" text "$sample"
./milch text "$sample" >"$work/sample.txt"
check 'installed: bytes' 0 "$sample" '' "${there[@]}" bytes "$work/sample.txt"
check 'installed: picture' 0 '' '' "${there[@]}" picture "$sample" --out "$work/there.html"
check 'installed: the same page' 0 '' '' cmp "$work/there.html" "$work/sample.html"
printf 'record add 3\nback\n' >"$work/panels.txt"
check 'installed: panels' 0 "$(./milch panels "$work/panels.txt")" '' "${there[@]}" panels "$work/panels.txt"
check 'installed: --version' 0 "$work/version" '' "${there[@]}" --version
check 'installed: --help' 0 "$(sed "s|\./milch|milch|; s|\(A sample: .* \)|\1$moved/share/milchkompass/|" "$texts/whole.txt")" '' "${there[@]}" --help
check 'installed: its own sample' 0 "$played" '' "${there[@]}" play "$moved/share/milchkompass/sample.recording"
check 'installed: a missing argument' 2 '' "milch: at: K is missing; 'milch at --help' says what it takes" "${there[@]}" at "$sample"
check 'installed: an unknown command' 2 '' "milch: no command 'frob' is known; 'milch --help' says what it takes" "${there[@]}" frob
check 'installed: install' 2 '' 'milch: install runs in a checkout alone; this folder may be copied' "${there[@]}" install "$work/again"
ln -s "$moved/bin/milch" "$work/installed-link"
check 'installed: by a symlink' 0 "$played" '' "${bare[@]}" "$work/installed-link" play "$sample"
mkdir "$work/from" && cp "$sample" "$work/from"
check 'installed: from another folder' 0 "$played" '' bash -c "cd '$work/from' && env -i PATH='$work/tools' '$moved/bin/milch' play sample.recording"

# ---- the library there

printf '#include <stdio.h>\n#include "milchkompass.h"\nint main(void) { return puts(milchkompass_abi() == MILCHKOMPASS_ABI ? "alike" : "apart") < 0; }\n' >"$work/abi.c"
read -ra flags <<<"$(sed -n 's/^Cflags: //p; s/^Libs: //p' "$moved/lib/pkgconfig/milchkompass.pc" | tr '\n' ' ')"
prefix="$moved/lib/pkgconfig/../.."
flags=("${flags[@]//\$\{includedir\}/$prefix/include}")
flags=("${flags[@]//\$\{libdir\}/$prefix/lib}")
check 'installed: a program in C' 0 '' '' cc -o "$work/abi" "$work/abi.c" "${flags[@]}"
check 'installed: it runs' 0 alike '' "$work/abi"

# ---- where it may be put

put="bin/milch, the library, its header and pkg-config file, and samples"
root=$PWD
put_into() { (cd "$work" && "$root/milch" install "$1"); }
echo mine >"$moved/mine"
: >"$moved/lib/milchkompass/programs/player"
echo old >"$moved/lib/milchkompass/old"
check 'install over an earlier one' 0 "moved here: $put" '' put_into 'moved here'
check 'install over an earlier one: what is replaced plays' 0 "$played" '' "${there[@]}" play "$sample"
check 'install over an earlier one: what is not its own stays' 0 mine '' cat "$moved/mine"
check 'install over an earlier one: nothing old is left' 0 '' '' find "$moved" -name old -o -name '.new*'
mkdir "$work/empty"
check 'install into an empty folder' 0 "empty/: $put" '' put_into empty/
check 'install into a folder of others' 2 '' "$(refused install "$work/from is not empty, and no earlier install")" ./milch install "$work/from"
check 'install: nothing is written there' 0 sample.recording '' ls -A "$work/from"
check 'install over a file' 2 '' "$(refused install "$work/from/sample.recording is no folder")" ./milch install "$work/from/sample.recording"
check 'install below a file' 2 '' "milch: $sample/below cannot be made or written" ./milch install "$sample/below"
check 'install without a folder' 2 '' "$(refused install 'DIR is missing')" ./milch install
check 'install with an empty name' 2 '' "$(refused install 'DIR is an empty name')" ./milch install ''
check 'install with -' 2 '' "$(refused install "'-' is no folder's name")" ./milch install -
check 'install with two names' 2 '' "$(refused install "'two' is one argument too many")" ./milch install one two
check 'install with an unknown option' 2 '' "$(refused install 'no option --force is known')" ./milch install --force "$work/again"
mkdir "$work/no-static" && printf '#!/bin/sh\necho libc.a\n' >"$work/no-static/cc" && chmod +x "$work/no-static/cc"
check 'install where cc has no libc.a' 2 '' "milch: 'cc' has no libc.a, which the programs are linked with for other machines (Debian: libc6-dev)" \
    env PATH="$work/no-static:$PATH" ./milch install "$work/again"
name='install: nothing is left of what failed' status=0
[ ! -e "$work/again" ] && [ ! -e one ] || wrong 'something is'
printf 'ok: %s\n' "$name"

# ---- bindings/library, which makes the library alone

of_library() { printf "library: %s; 'bindings/library --help' says what it takes" "$1"; }
check 'library --help' 0 "$(sed -n "/^usage='/,/'$/p" bindings/library | sed "s/^usage='//; s/'$//")" '' bindings/library --help
check 'library with two folders' 2 '' "$(of_library "'two' is one argument too many")" bindings/library one two
check 'library with an unknown option' 2 '' "$(of_library 'no option --fast is known')" bindings/library --fast
check 'library with -' 2 '' "$(of_library 'no option - is known')" bindings/library -
check 'library with an empty name' 2 '' "$(of_library 'FOLDER is an empty name')" bindings/library ''
check 'library over a file' 2 '' "$(of_library "$sample is no folder")" bindings/library "$sample"
