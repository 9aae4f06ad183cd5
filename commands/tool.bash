# What an agent sees of a recording: show, at, text, bytes, diff, picture, fronts; and panels. The program is tools/milch over the
# library, and says itself what went wrong. What can be told of its arguments is told here, before a build.
usage=$(text_of "$asked") || exit 2

take "$@"
for name in "${files[@]}"; do readable "$name"; done
build milch
exec "$built" "$asked" "$@"
