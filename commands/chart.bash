# Prints the flag chart: its numbers, by the proved program, or what they do in words, by tools/milch over the library. Status: 0
# where it was printed, else 2.
usage=$(text_of chart) || exit 2

take "$@"
[ -z "${option[--mode]-}" ] || [ -n "${option[--words]-}" ] || refuse '--mode is there for --words, which is missing'
if [ -n "${option[--words]-}" ]; then
    build milch
    exec "$built" chart "$@"
fi
build chart
run
