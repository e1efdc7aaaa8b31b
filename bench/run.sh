#!/bin/sh
# Times the product against the plain implementation in bench/plain.c, both built with -O3, and prints the ratios.
# It is no part of the gate: a time decides nothing there. With --built the archive is taken as it stands.
set -eu
cd "$(dirname "$0")/.."
work=$(mktemp -d)
trap 'rm -rf "$work"' EXIT
if [ "${1:-}" != --built ]; then
    (cd crates/timing && rt lib) > "$work/log" 2>&1 || { tail -5 "$work/log" >&2; exit 1; }
fi
gcc -std=gnu11 -Wall -Wextra -Werror -O3 -Ibench bench/bench.c bench/plain.c crates/timing/out/libtiming.a -o "$work/bench"
"$work/bench"
