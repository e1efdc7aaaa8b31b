#!/usr/bin/env bash
# Builds the host library and the C program, and compares what they answer with what they have to answer.
# Ends with status 0 and a line of what was compared, or with another status at any difference.
set -euo pipefail
cd "$(dirname "$0")/.."

work=$(mktemp -d)
trap 'rm -rf "$work"' EXIT

# With --built the archive is taken as it stands.
if [ "${1:-}" != --built ]; then
    host/build.sh > "$work/log" 2>&1 || { tail -5 "$work/log" >&2; exit 1; }
    (cd crates/mend && rt run < stdin) > "$work/log" 2>&1 || { tail -5 "$work/log" >&2; exit 1; }
fi
archive=target/staticlib/libhost.a
mend=crates/mend/out/mend
# The sanitizers watch the C side. The library is compiled without them, so valgrind watches its reads and writes.
flags="-std=c11 -Wall -Wextra -Werror -pedantic -g -O1 -Ihost"
sanitized="-fsanitize=address,undefined -fno-sanitize-recover=all"
gcc $flags $sanitized host/mend.c "$archive" -o "$work/mend_host"
gcc $flags $sanitized host/calls.c "$archive" -o "$work/calls"
gcc $flags host/calls.c "$archive" -o "$work/calls_plain"

# The calls that are made one by one, from a C program of their own.
"$work/calls"
valgrind -q --error-exitcode=1 --leak-check=full "$work/calls_plain" > "$work/watched"
echo "host/check.sh: the same calls under valgrind, with no read or write beside what was handed over"

# The program: files and blocks written as hex, and the lines that have to be printed.
bytes() { printf "$(printf %s "$1" | sed 's/ *\(..\)/\\x\1/g')"; }
compared=0
mends() { # name, file, blocks, status, lines
    bytes "$2" > "$work/scheme"
    bytes "$3" > "$work/blocks"
    status=0
    "$work/mend_host" "$work/scheme" < "$work/blocks" > "$work/lines" || status=$?
    printf "$5" > "$work/expected"
    if [ "$status" != "$4" ] || ! cmp -s "$work/lines" "$work/expected"; then
        echo "host/check.sh: $1: status $status, expected $4; lines and expected lines:" >&2
        cat "$work/lines" "$work/expected" >&2
        exit 1
    fi
    compared=$((compared + 1))
}
hamming='50 44 53 00 01 00 02 07 04 01 01 00 05 01 01 01 00 00 01 01 01 01 01 01 00 01'
repeated='50 44 53 00 01 00 02 04 01 01 01 00 02 01 01 01 01'
mends 'mended and clean' "$hamming" '01 01 01 00 01 00 00 00 01 01 00 01 00 00' 0 '0 1 0110100\n1 0 0110100\n'
mends 'a symbol too great' "$hamming" '00 01 01 00 02 00 00 00 01 01 00 01 00 00' 1 '0 115 -\n1 0 0110100\n'
mends 'a short last block' "$hamming" '00 01 01 00 01 00 00 00 01' 1 '0 0 0110100\n1 114 -\n'
mends 'a lost block' "$repeated" '01 01 00 00 01 01 01 00' 1 '0 117 -\n1 1 1111\n'
mends 'no blocks' "$hamming" '' 0 ''
mends 'a file cut off' '50 44 53 00 01 00 02 07' '00' 1 '0 118 -\n'
mends 'an empty file' '' '00 00' 1 '0 118 -\n1 118 -\n'

# The program `mend` on the same scheme and blocks: the lines of both have to tell the same.
told() { # the lines of mend, as mend_host writes them; of a refused scheme one for each block
    awk -v blocks="$1" '
        $1 == "refused" { for (i = 0; i < blocks; i++) print i, 100 + $2, "-"; next }
        $1 == "total" { next }
        $2 == "lost" { print $1 - 1, 117, "-"; next }
        $2 == "refused" { print $1 - 1, 100 + $3, "-"; next }
        { print $1 - 1, $3, $4 }'
}
alike=0
agree() { # file, blocks
    bytes "$1" > "$work/scheme"
    bytes "$2" > "$work/blocks"
    { bytes "$(printf '%04x' "$(wc -c < "$work/scheme")")"; cat "$work/scheme" "$work/blocks"; } > "$work/input"
    "$work/mend_host" "$work/scheme" < "$work/blocks" > "$work/lines" || true
    "$mend" < "$work/input" | told "$(wc -l < "$work/lines")" > "$work/expected"
    if ! cmp -s "$work/lines" "$work/expected"; then
        echo "host/check.sh: mend and mend_host differ on the file $1 and the blocks $2:" >&2
        cat "$work/expected" "$work/lines" >&2
        exit 1
    fi
    alike=$((alike + 1))
}
RANDOM=7
symbols() { # count, below
    local i
    for ((i = 0; i < $1; i++)); do printf ' %02x' $((RANDOM % $2)); done
}
ternary='50 44 53 00 01 00 03 04 02 01 00 00 03 02 02 02 01 00 01 02 03 01 02 00 03 02 00 01 03'
fours='50 44 53 00 01 01 02 03 01 01 01 00 03 01 02 03'
for ((round = 0; round < 12; round++)); do
    agree "$hamming" "$(symbols 700 2)"
    agree "$hamming" "$(symbols 100 3)"
    agree "$repeated" "$(symbols 403 2)"
    agree "$ternary" "$(symbols 400 3)"
    agree "$fours" "$(symbols 300 4)"
    # the worked file with one byte changed, and a file of random bytes
    cut=$((RANDOM % 26 * 3))
    agree "${hamming:0:cut}$(printf '%02x' $((RANDOM % 256)))${hamming:cut+2}" "$(symbols 70 2)"
    agree "$(symbols 30 256)" "$(symbols 20 2)"
done
echo "host/check.sh: mend and mend_host alike on $alike inputs"

echo "host/check.sh: $compared inputs of mend_host as they have to be"
