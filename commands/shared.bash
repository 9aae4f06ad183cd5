# What the commands share. `milch` sources this file and then that of the command, which sets `usage` and calls, in this order:
#
#   take "$@"           reads the arguments by the usage, and names what is wrong with them
#   readable NAME       for each file that the program opens: a message where it cannot be read
#   take_input NAME     for one that it gets as its standard input: the same, and opens it
#   build PROGRAM       sets `built` to the program; in a checkout it proves and builds it first, unless that is done
#   run ARGUMENT..      runs it
#
# A command ends with status 0 where all is done. Anything else is a message on standard error and status 2.
#
# A program gives no exit status of its own. It says on standard error what went wrong, and a line there that begins with
# 'warning: ' is no failure. So `run` reads its standard error, and tells apart:
#   nothing, or warnings alone    done
#   any other line                a failure, such as a write that failed
#   SIGPIPE                       nobody reads on, which is no error and ends it
#   any other signal              a failure, of which the program could say nothing
# A command that runs a program on several files sets `about` to the name of each with ': ' behind it, for these messages.
set -uo pipefail
unset CDPATH
command=${0##*/}
asked=''
about=''

say() { printf '%s: %s\n' "$command" "$1" >&2; }

fail() {
    say "$1"
    exit 2
}

# Closed descriptors come first, since what is opened later would take their numbers.
[ -e /dev/fd/2 ] || exec 2>/dev/null
[ -e /dev/fd/1 ] || fail 'standard output is closed'
input_closed=''
[ -e /dev/fd/0 ] || { exec </dev/null && input_closed=yes; }

here=$(cd "$(dirname "$(readlink -f "${BASH_SOURCE[0]}")")/.." && pwd) || fail 'cannot tell where it stands'

# Where it was installed: the file that tells what of. Then the programs stand here and nothing is built; and the texts name the
# command and the sample as they are found there.
installed=''
own=./milch
if [ -e "$here/installed" ]; then
    installed=$here/installed
    own=milch
fi

# ---- texts

# Writes a text to standard output, or fails: in a process of its own, which a closed pipe may end.
print() {
    (printf '%s\n' "$1" 2>/dev/null) || fail 'standard output cannot be written'
}

# A text as it holds where this stands.
placed() { # TEXT
    local text=$1
    if [ -n "$installed" ]; then
        text=${text//.\/milch/milch}
        text=${text// sample.recording/ "${here%/lib/milchkompass}/share/milchkompass/sample.recording"}
    fi
    printf '%s\n' "$text"
}

# The help of the whole, or of a command of the program in tools/milch, which has it too.
text_of() { # NAME
    local folder=$here/tools/milch/src/usage
    [ -z "$installed" ] || folder=$here/usage
    cat "$folder/$1.txt" 2>/dev/null || fail "$folder/$1.txt cannot be read"
}

# ---- arguments

known=''
refuse() { # MESSAGE
    fail "${known:+$asked: }$1; '$own ${known:+$asked }--help' says what it takes"
}

# Reads the first lines of the usage, up to one that begins with a letter. There a WORD is an argument, [--option] and
# [--option WORD] may be left out, --option WORD may not, and ... is for more of the last. Sets `wanted` to the arguments,
# `kind` of each option to its WORD or 'nothing', and `due` to the options that may not be left out.
synopsis() {
    local text=$usage line words='' word next=''
    while [ -n "$text" ]; do
        line=${text%%$'\n'*}
        case $line in "usage: "* | ' '*) words+=" $line" ;; *) break ;; esac
        text=${text#"$line"}
        text=${text#$'\n'}
    done
    set -f
    # shellcheck disable=SC2086
    set -- ${words#" usage: ./milch $asked"}
    set +f
    for word; do
        if [ -n "$next" ]; then
            kind[$next]=${word%]}
            next=''
            continue
        fi
        case $word in
            '[--'*']') word=${word#[} && kind[${word%]}]=nothing ;;
            '[--'*) next=${word#[} ;;
            --*) next=$word && due+=("$word") ;;
            *) wanted+=("$word") ;;
        esac
    done
}

# Sets `value` to the number that a text is, in base ten or in hex behind 0x, or fails where it is none or too large.
declare -A most=([SEED]=4294967295 [RECORDS]=1000000000000)
numeral() { # KIND TEXT
    local digits=$2 base=10
    [[ $2 != 0x* ]] || { base=16 && digits=${2#0x}; }
    case $base-$digits in 10-*[!0-9]* | 16-*[!0-9a-fA-F]* | *-) refuse "$1 '$2' is no number" ;; esac
    digits=${digits#"${digits%%[!0]*}"}
    [ "${#digits}" -le 15 ] && value=$(($base#${digits:-0})) && [ "$value" -le "${most[$1]}" ] ||
        refuse "$1 $2 is above ${most[$1]}"
}

# A flag by its name, or bits in hex; and a list of them.
flag=' *(NEW_TASK|SINGLE_TOP|MULTIPLE_TASK|CLEAR_TOP|REORDER_TO_FRONT|CLEAR_TASK|NO_HISTORY|0x0*[0-9a-fA-F]{1,8}) *'
flags="^$flag([|,]$flag)*\$"

# Fails where a value is not of its kind: K is the number of a record, SEED and RECORDS are those of a load, FLAGS a list of
# flags, MODE a launch mode, anything else is the name of a file.
fits() { # WHAT KIND VALUE
    local value
    case $2 in
        SEED) numeral SEED "$3" && [ "$value" -ne 0 ] || refuse 'SEED is 0 (refusal 32)' ;;
        RECORDS) numeral RECORDS "$3" ;;
        K) [[ $3 =~ ^0*[1-9][0-9]*$ ]] || refuse "$1 '$3' is no record's number, of which the first is 1" ;;
        FLAGS) [[ $3 = none || $3 =~ $flags ]] ||
            refuse "$1 '$3' is no list of flags: names joined by | or commas, hex behind 0x, or none" ;;
        MODE)
            case $3 in
                standard | single-top | single-task | single-instance) ;;
                *) refuse "$1 '$3' is none of standard, single-top, single-task and single-instance" ;;
            esac
            ;;
        *) [ -n "$3" ] || refuse "$1 is an empty name" ;;
    esac
}

# Reads the arguments by the usage. Sets `plain` to those that are no options, `option` of each option that is given to its
# value or 'yes', and `files` to the names of what is read.
declare -a plain=() files=()
declare -A option=()
take() { # ARGUMENT..
    local -a wanted=() due=()
    local -A kind=()
    local name
    known=yes
    if [ $# -eq 1 ] && [[ $1 = --help || $1 = -h ]]; then
        print "$(placed "$usage")"
        exit 0
    fi
    synopsis
    while [ $# -gt 0 ]; do
        case $1 in
            -?*)
                take_option "$@"
                [ "${kind[$1]}" = nothing ] || shift
                ;;
            *) take_plain "$1" ;;
        esac
        shift
    done
    for name in "${wanted[@]:${#plain[@]}}"; do [ "$name" = ... ] || refuse "$name is missing"; done
    for name in "${due[@]}"; do [ -n "${option[$name]-}" ] || refuse "$name ${kind[$name]} is missing"; done
    in_order
    read_once
}

take_option() { # OPTION [VALUE..]
    local kind_of=${kind[$1]-}
    [[ $1 != --help && $1 != -h ]] || refuse "$1 stands alone behind the command"
    [ -n "$kind_of" ] || refuse "no option $1 is known"
    [ -z "${option[$1]-}" ] || refuse "$1 is given twice"
    if [ "$kind_of" = nothing ]; then
        option[$1]=yes
        return
    fi
    [ $# -ge 2 ] || refuse "behind $1 $kind_of is missing"
    [ "$1 $2" != '--out -' ] || refuse "$1 - is no file to be written"
    fits "$1" "$kind_of" "$2"
    option[$1]=$2
    [ "$kind_of" != NAMES ] || files+=("$2")
}

take_plain() { # ARGUMENT
    local at=${#plain[@]} last=''
    [ "${#wanted[@]}" -eq 0 ] || last=${wanted[-1]}
    [ "$at" -lt "${#wanted[@]}" ] || [ "$last" = ... ] || refuse "'$1' is one argument too many"
    [ "${wanted[at]-...}" != ... ] || at=$((${#wanted[@]} - 2))
    fits "${wanted[at]}" "${wanted[at]}" "$1"
    plain+=("$1")
    case ${wanted[at]} in K | SEED | RECORDS) ;; *) files+=("$1") ;; esac
}

# --to K is not before --from K. Numbers of more digits than these the program compares.
in_order() {
    local from=${option[--from]-1} to=${option[--to]-}
    [ -n "$to" ] && [ "${#from}" -le 18 ] && [ "${#to}" -le 18 ] || return 0
    [ "$((10#$from))" -le "$((10#$to))" ] || refuse "--to $to is before --from $from"
}

read_once() {
    local name inputs=0
    for name in "${files[@]}"; do ! names_input "$name" || inputs=$((inputs + 1)); done
    [ "$inputs" -le 1 ] || refuse 'standard input can be read once only'
}

# Whether a name is that of standard input.
names_input() { case $1 in - | /dev/stdin | /dev/fd/0) true ;; *) false ;; esac; }

readable() { # NAME
    local file=$1
    if names_input "$1"; then
        [ -z "$input_closed" ] || fail 'standard input is closed'
        file=/dev/fd/0
    fi
    [ -e "$file" ] || fail "$1: no such file"
    [ ! -d "$file" ] || fail "$1 is a directory, and no file"
    [ -r "$file" ] || fail "$1 may not be read"
}

# The path by which a program opens what a name names.
path_of() { if [ "$1" = - ]; then echo /dev/stdin; else printf '%s\n' "$1"; fi; }

# Makes what a name names the standard input.
take_input() { # NAME
    readable "$1"
    names_input "$1" || { exec <"$1"; } 2>/dev/null || fail "$1 cannot be opened"
}

# ---- the program

if [ -n "$installed" ]; then
    build() { # PROGRAM
        built=$here/programs/$1
        [ -x "$built" ] || fail "$built is missing: install it again"
    }
else
    . "$here/commands/build.bash" || fail "$here/commands/build.bash cannot be read"
fi

run() { # ARGUMENT..
    local said status=0 line failed=''
    { said=$(exec "$built" "$@" 2>&1 >&3 3>&-) || status=$?; } 3>&1
    # line by line, and without a file, which a full disk would not take
    while [ -n "$said" ]; do
        line=${said%%$'\n'*}
        said=${said#"$line"}
        said=${said#$'\n'}
        case $line in
            'warning: '*) say "warning: $about${line#warning: }" ;;
            *)
                failed=yes
                say "$about$line"
                ;;
        esac
    done
    case $status in
        0 | 141) ;;
        139) fail "${about}stopped by signal SEGV; it needs 4 MiB of stack (ulimit -s)" ;;
        126 | 127) fail "$built cannot be run" ;;
        *) fail "${about}stopped by signal $(kill -l "$status")" ;;
    esac
    [ -z "$failed" ] || exit 2
}
