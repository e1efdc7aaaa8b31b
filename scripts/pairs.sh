#!/bin/sh
# Runs the program mend on inputs whose output is known: what only the program itself can show.
# Exits with 1 at the first difference.
set -eu
cd "$(dirname "$0")/.."
mend=crates/mend/out/mend
(cd crates/mend && rt run < stdin) > /dev/null 2>&1 || { echo "mend was not built"; exit 1; }
work=$(mktemp -d)
trap 'rm -rf "$work"' EXIT

same() { # name, input, expected
    "$mend" < "$2" > "$work/out"
    if ! cmp -s "$work/out" "$3"; then
        echo "$1: differs"
        head -c 400 "$work/out"
        exit 1
    fi
    echo "$1: as expected"
}

scheme() { # the worked file with its length
    printf '\000\032PDS\000\001\000\002\007\004\001\001\000\005\001\001\001\000\000\001\001\001\001\001\001\000\001'
}

: > "$work/in"
printf 'refused 18 0 0\n' > "$work/expected"
same "no input" "$work/in" "$work/expected"
printf '\000' > "$work/in"
same "one byte" "$work/in" "$work/expected"

# 49,935 bytes are read: 28 of length and file leave 49,907, which are 7,129 blocks and 4 bytes
{ scheme; head -c 60000 /dev/zero; } > "$work/in"
awk 'BEGIN { for (i = 1; i <= 7129; i++) print i " clean 0 0000000"; print "7130 refused 14"; print "total 7129 7129 0 0 0" }' > "$work/expected"
same "more than the limit" "$work/in" "$work/expected"
