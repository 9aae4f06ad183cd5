# Part of tests/commands: what docs/PROMISES.md names is there: each function in the source of its crate, each clause in its
# contract, each definition in the file that is linked.

# Sets `contract` to that of a function, from its name to its body.
declare -A contracts=()
contract_of() { # CRATE FUNCTION
    contract=${contracts[$1::$2]-}
    [ -z "$contract" ] || return 0
    contract=$(cat "crates/$1/src/"*.rt | awk -v name="fn $2[(<]" '$0 ~ name { on = 1 } on { print } on && /^ *\{$/ { exit }')
    contracts[$1::$2]=$contract
}
# The words in backticks of a text.
quoted() { grep -o '`[^`]*`' | tr -d '`'; }

name='docs/PROMISES.md names what is there' status=0
rows=0
while IFS='|' read -r _ _ functions clauses definitions _; do
    [[ $definitions == *'](../crates/'* ]] || continue
    rows=$((rows + 1))
    while read -r function; do
        case $function in
            milchkompass_*) contract_of lent "$function" ;;
            *::*) contract_of "${function%%::*}" "${function#*::}" ;;
            *) continue ;;
        esac
        [ -n "$contract" ] || wrong "there is no function $function"
        while read -r clause; do
            [[ $contract == *"ensures $clause {"* ]] || wrong "$function has no clause $clause"
        done < <(quoted <<<"$clauses")
    done < <(quoted <<<"$functions")
    while read -r linked; do
        definition=${linked%%\`]*}
        file=${linked#*(../}
        grep -qE "^ *(pub |abbrev pub |pub record |pub data )?(record |data )?${definition#[\`} " "${file%)}" || wrong "$file has no ${definition#[\`}"
    done < <(grep -o '\[`[^`]*`\]([^)]*)' <<<"$definitions")
done <docs/PROMISES.md
[ "$rows" -ge 30 ] || wrong "it has $rows rows alone"
printf 'ok: %s\n' "$name"

# Links between the documents lead somewhere.
name='links in the documents' status=0
for document in README.md docs/*.md bindings/README.md; do
    [ -r "$document" ] || wrong "$document is not there"
    while read -r link; do
        target=${link%%#*}
        file=$document
        [ -z "$target" ] || file=$(dirname "$document")/$target
        [ -e "$file" ] || wrong "$document: $link is not there"
        case $link in
            *'#'*) sed -n 's/^#* //p' "$file" | tr 'A-Z ' 'a-z-' | tr -d "'?:,." | grep -qx -- "${link#*#}" || wrong "$document: $link has no heading" ;;
        esac
    done < <(grep -o '](\([^)]*\))' "$document" | sed 's/^](//; s/)$//' | grep -v '^http')
done
printf 'ok: %s\n' "$name"
