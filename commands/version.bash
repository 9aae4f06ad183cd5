# Prints the version, the kit that proved the programs, and the number of the sources that they are made of.
[ $# -eq 0 ] || refuse "'$1' is too much: --version stands alone"
if [ -n "$installed" ]; then
    version=$(cat "$installed") || fail "$installed cannot be read"
else
    version=$(version) || exit 2
fi
print "$version"
