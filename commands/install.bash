# Puts what is built into a folder that needs neither the kit nor cargo. Status: 0 where all of it stands there, else 2.
usage='usage: ./milch install DIR
Puts into DIR all that is needed where neither the kit nor cargo is: bin/milch with its commands, the programs, the library
with its header and its pkg-config file, and samples. The programs bring their C library along (they are linked statically), so
DIR runs on another x86-64 Linux that has bash, and may be moved as a whole.
DIR is made, or is empty, or is an earlier install, which is replaced.'

# What is put into the folder. The first tells an earlier install.
pieces=(lib/milchkompass bin/milch lib/libmilchkompass.a lib/pkgconfig/milchkompass.pc include/milchkompass.h share/milchkompass)

# Fails where DIR cannot be taken, before anything is built.
free_for() { # DIR
    local found
    ! names_input "$1" || refuse "'$1' is no folder's name"
    [ -e "$1" ] || [ -L "$1" ] || return 0
    [ -d "$1" ] || refuse "$1 is no folder"
    [ -w "$1" ] || fail "$1 cannot be written"
    [ ! -e "$1/lib/milchkompass/installed" ] || return 0
    found=$(ls -A "$1" 2>/dev/null) || fail "$1 may not be read"
    [ -z "$found" ] || refuse "$1 is not empty, and no earlier install"
}

# Links the proved programs for other machines: their objects with the kit's C code and a C library.
link_programs() { # FOLDER
    local program kit code
    kit=$(dirname "$(readlink -f "$(command -v rt)")")/../c
    for code in libos_c.a liblibc_c.a; do [ -r "$kit/$code" ] || fail "the kit has no $kit/$code"; done
    for program in player explain depth load same chart; do
        cc -static -o "$1/$program" "${made[$program]}.o" "$kit/libos_c.a" "$kit/liblibc_c.a" >&2 ||
            fail "'$program' cannot be linked"
    done
}

# Lays everything out as it will stand.
lay_out() { # FOLDER
    local own=$1/lib/milchkompass
    mkdir -p "$own/programs" "$own/usage" "$1/bin" "$1/share/milchkompass" || return
    link_programs "$own/programs"
    cp "${made[milch]}" "$own/programs/milch" && cp -R "${made[milch]}.library/." "$1" && cp "$here/milch" "$1/bin/" &&
        cp -R "$here/commands" "$own/" && cp "$here/tools/milch/src/usage/"*.txt "$own/usage/" &&
        cp "$here/sample.recording" "$here/prices.recording" "$here/prices.names" "$1/share/milchkompass/" || return
    rm "$own/commands/build.bash" "$own/commands/library.bash" && version >"$own/installed"
}

take "$@"
folder=${plain[0]}
[ -z "$installed" ] || fail 'install runs in a checkout alone; this folder may be copied'
free_for "$folder"
type cc >/dev/null 2>&1 || fail "the C compiler 'cc' cannot be run, which links the programs for other machines"
static_c || fail "'cc' has no libc.a, which the programs are linked with for other machines (Debian: libc6-dev)"
declare -A made=()
for program in player explain depth load same chart milch; do
    build "$program"
    made[$program]=$built
done
mkdir -p "$folder" 2>/dev/null && new=$(mktemp -d "$folder/.new.XXXXXX" 2>/dev/null) || fail "$folder cannot be made or written"
trap 'rm -rf "$new"; rmdir "$folder" 2>/dev/null' EXIT
lay_out "$new" || fail "$folder cannot be written"
for piece in "${pieces[@]}"; do
    { rm -rf "${folder:?}/$piece" && mkdir -p "$(dirname "$folder/$piece")" && mv "$new/$piece" "$folder/$piece"; } 2>/dev/null ||
        fail "$folder/$piece cannot be written"
done
print "$folder: bin/milch, the library, its header and pkg-config file, and samples"
