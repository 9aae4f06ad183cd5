# How a checkout makes its programs: each is proved and built once, and kept in .built, outside of the crates' out/, under a
# number of what it is made of. The proved programs are kept with their objects, which `install` links for other machines.
. "$here/commands/library.bash" || fail "$here/commands/library.bash cannot be read"

# What a program is made of: crates, and behind -- files beside them.
parts_of() { # PROGRAM|everything
    local tool='lent -- bindings/c/milchkompass.h bindings/rust tools/milch commands/library.bash'
    case $1 in
        milch) echo "$tool" ;;
        everything) echo "player explain depth load same chart $tool" ;;
        *) echo "$1 --" ;;
    esac
}

# The crates that some crates are made of, in the order in which rt proves them: each behind those that it reaches.
crates_of() { # CRATE..
    awk -v wanted="$*" '
        { sub(/#.*/, ""); colon = index($0, ":") }
        colon { split(substr($0, 1, colon - 1), head, " "); below[head[1]] = substr($0, colon + 1) }
        function reach(crate,    names, many, i) {
            if (!(crate in below) || crate in seen) return
            seen[crate]
            many = split(below[crate], names, " ")
            for (i = 1; i <= many; i++) reach(names[i])
            print crate
        }
        END {
            count = split(wanted, todo, " ")
            for (k = 1; k <= count; k++) reach(todo[k])
        }' "$here/crates.txt"
}

# What a program is built from, as one number: the kit, how it is linked, of each crate its line and its files, and files beside
# them, whatever their times. That of everything is of the sources alone.
sources_of() { # PROGRAM|everything
    (
        cd "$here" || exit
        parts=$(parts_of "$1")
        crates=$(crates_of "${parts%% --*}" | LC_ALL=C sort) || exit
        mapfile -t crates <<<"$crates"
        read -ra beside <<<"${parts#*--}"
        {
            [ "$1" = everything ] || printf '%s\n' "$kit"
            [ "$1" != milch ] || ! static_c || echo static
            for crate in "${crates[@]}"; do grep "^$crate[ :]" crates.txt; done
            find "${crates[@]/#/crates/}" "${beside[@]}" -type f ! -path '*/must-fail/*' ! -path '*/target/*' \
                ! -regex 'crates/[^/]*/out/.*' -print0 | LC_ALL=C sort -z | xargs -0 sha256sum
        } | sha256sum | cut -d ' ' -f 1
    )
}

# Sets `number` to the number of what a program is built from by this kit.
number_of() { # PROGRAM|everything
    kit=$(rt version 2>/dev/null </dev/null) || fail "the kit's command 'rt' cannot be run: README.md names the kit"
    number=$(sources_of "$1" 2>/dev/null) && [[ $number =~ ^[0-9a-f]{64}$ ]] ||
        fail 'the sources cannot be read and numbered (by find, sort and sha256sum)'
}

# The version, the kit, and the number of all sources.
version() {
    local kit number
    number_of everything
    printf 'milch %s\nkit %s\nsources %s\n' "$(sed -n 's/^version = "\(.*\)"$/\1/p' "$here/bindings/rust/Cargo.toml")" "$kit" "$number"
}

# Whether the C compiler has a C library to link programs with that need none where they run.
static_c() { [[ $(cc -print-file-name=libc.a 2>/dev/null) == */* ]]; }

# ---- proving

# Says how far a build is: on a terminal in one line that changes.
progress() { # WHAT DONE ALL
    local end='\n'
    [ ! -t 2 ] || end='\r'
    printf "%s: proving and building %s from its sources, which happens once: %d of %d crates are proved$end" \
        "$command" "$1" "$2" "$3" >&2
}

# Proves a crate and those that it is made of, builds it, and says how far it is: a program by `rt run`, which runs it too, on
# nothing, and the library by `rt lib`. It then stands in the folder's out/, a program's object beside it.
prove() { # CRATE WHAT run|lib
    local crate=$1 what=$2 how=$3 log=$here/.built/$1.log name='' line place
    local -a order=()
    mapfile -t order < <(crates_of "$crate")
    progress "$what" 0 "${#order[@]}"
    (cd "$here/crates/$crate" && rt "$how" 2>&1 </dev/null) | tee "$log" | while IFS= read -r line; do
        case $line in
            'crate '*': modules '*) name=${line#crate } && name=${name%%:*} ;;
            # what was proved before has no line, so the place in the order counts
            'logic=proved '*)
                for place in "${!order[@]}"; do
                    [ "${order[place]}" != "$name" ] || progress "$what" $((place + 1)) "${#order[@]}"
                done
                ;;
        esac
    done
    local status=$?
    [ ! -t 2 ] || printf '\n' >&2
    # What is run is proved and built, and then the status is its own.
    if [ "$status" -ne 0 ] && { [ "$how" = lib ] || ! grep -q "^rt: running out/$crate;" "$log"; }; then
        grep -E '^fn [^ ]+: (not proved|no proof)|^[^ ]+: error|^rt: ' "$log" | grep -vE '^rt: (chose |.*: begins with |.*waiting )' | cut -c 1-400 >&2
        fail "$what could not be proved and built; what rt said stands in .built/$crate.log"
    fi
}

# ---- building

# Keeps a copy of a program that was built, so that it is there whole or not at all; what was kept of other sources goes.
keep() { # PROGRAM FILE
    local kept
    number_of "$1"
    [ "$built" = "$here/.built/$1-$number" ] || fail 'the sources changed while they were proved: try again'
    for kept in "$here/.built/$1-"*; do case $kept in "$built"*) ;; *) rm -rf "$kept" ;; esac; done
    cp "$2" "$here/.built/$1.new" && mv "$here/.built/$1.new" "$built" || fail "'$1' could not be kept in .built"
}

make_program() { # PROGRAM
    local out=$here/crates/$1/out
    prove "$1" "'$1'" run
    cp "$out/$1.o" "$built.o" || fail "'$1' could not be kept in .built"
    keep "$1" "$out/$1"
}

# The program in tools/milch, and beside it the library that it is made of.
make_tool() {
    local log=$here/.built/milch.log flags=''
    type cargo >/dev/null 2>&1 || fail "'cargo' cannot be run: README.md says what is needed"
    make_library "$built.library"
    ! static_c || flags='-C target-feature=+crt-static'
    say "building 'milch' by cargo"
    if ! RUSTFLAGS=$flags MILCHKOMPASS_LIB_DIR=$built.library/lib cargo build --release --offline --bin milch \
        --manifest-path "$here/tools/milch/Cargo.toml" --target-dir "$here/.built/cargo" >"$log" 2>&1 </dev/null; then
        tail -n 5 "$log" >&2
        fail "'milch' could not be built; what cargo said stands in .built/milch.log"
    fi
    keep milch "$here/.built/cargo/release/milch"
}

# Whether a program is there as `keep` leaves it.
kept() { [ -x "$built" ] && { [ "$1" = milch ] || [ -f "$built.o" ]; }; } # PROGRAM

# Whether rt can work in the folders of the crates that a program is made of.
writable() { # PROGRAM
    local parts crate
    parts=$(parts_of "$1")
    for crate in $(crates_of "${parts%% --*}"); do
        [ -w "$here/crates/$crate" ] && { [ ! -e "$here/crates/$crate/out" ] || [ -w "$here/crates/$crate/out" ]; } || return
    done
}

# Sets `built` to the program. One build goes on at a time, under a lock which stands outside of out/, and the others wait.
build() { # PROGRAM
    local program=$1 kit number lock
    number_of "$program"
    built=$here/.built/$program-$number
    ! kept "$program" || return 0
    if ! { mkdir -p "$here/.built" && [ -w "$here/.built" ] && writable "$program" &&
        exec {lock}>>"$here/.built/lock"; } 2>/dev/null; then
        fail "'$program' has yet to be built from these sources, and $here cannot be written"
    fi
    if ! flock -n "$lock"; then
        say 'waiting for another build'
        flock "$lock" || fail 'the lock .built/lock cannot be had'
    fi
    number_of "$program"
    built=$here/.built/$program-$number
    if ! kept "$program"; then
        case $program in milch) make_tool ;; *) make_program "$program" ;; esac
    fi
    exec {lock}>&-
}
