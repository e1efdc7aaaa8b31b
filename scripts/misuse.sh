#!/bin/sh
# Shows that two misuses of schemes do not compile, and the message that a caller sees:
# correcting with a draft, and going on with a live scheme after withdraw. Exits with 1 if one of them compiles.
set -u
cd "$(dirname "$0")/.."
top=$(pwd)
work=$(mktemp -d)
trap 'rm -rf "$work"' EXIT
mkdir -p "$work/crates"
for crate in faults symbols lists codes promises schemes; do
    mkdir "$work/crates/$crate"
    cp -r "$top/crates/$crate"/[!o]* "$work/crates/$crate/"
done

try() { # name, expected words, body
    mkdir -p "$work/crates/misuse/src"
    cat > "$work/crates.txt" <<LIST
faults:
symbols: faults
lists: faults
codes: symbols
promises: faults symbols lists codes
schemes: faults symbols lists codes promises
misuse: schemes symbols lists
LIST
    cat > "$work/crates/misuse/src/lib.rt" <<CODE
use lists::Shifts;
use schemes::Draft;
use schemes::Live;
use symbols::Residues;

$3
CODE
    (cd "$work/crates/misuse" && rt check 2>&1) > "$work/out"
    said=$(grep -m1 "src/lib.rt:[0-9]*:[0-9]*: error" "$work/out" | sed 's|^[^:]*src/lib.rt|lib.rt|')
    case "$said" in
        *"$2"*) echo "$1: refused: $said" ;;
        *) echo "$1: NOT refused as expected"; cat "$work/out"; exit 1 ;;
    esac
}

try "correct with a draft" "unknown-method" \
'pub fn early(mut draft: Draft, kind: &Residues, list: &Shifts, block: &[u8], out: &mut [u8]) {
    let _ = draft.correct(kind, list, &[1, 1], block, out);
}'
try "go on after withdraw" "e0382" \
'pub fn late(live: Live, kind: &Residues, list: &Shifts, message: &[u8], out: &mut [u8]) {
    let (_draft, _tally) = live.withdraw();
    let _ = live.encode(kind, list, &[1, 1], message, out);
}'
