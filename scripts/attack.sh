#!/bin/sh
# Plants bugs that were thought up by hand, one at a time, and shows that the prover refuses each: the edits in attacks/CRATE.
# Those in crates/CRATE/must-fail are tried by the gate. An edit is three lines: file, old text, new text.
# Usage: scripts/attack.sh [CRATE ..]; without a name, all crates. Ends with 1 if a bug is still proved.
# It is no part of the gate: each edit costs a check of its crate, about ten seconds after the first.
set -u
cd "$(dirname "$0")/.."
top=$(pwd)
work=$(mktemp -d)
trap 'rm -rf "$work"' EXIT

[ $# -gt 0 ] || set -- $(ls attacks)

# Tries one edit in a copy, and prints a line.
try() { # COPY CRATE EDIT
    name=$(basename "$3" .edit)
    file=$1/crates/$2/$(sed -n 's/^file: //p' "$3")
    cp "$file" "$1/kept"
    OLD=$(sed -n 's/^old: //p' "$3") NEW=$(sed -n 's/^new: //p' "$3") awk '
        BEGIN { old = ENVIRON["OLD"]; new = ENVIRON["NEW"] }
        { at = index($0, old); if (at) { $0 = substr($0, 1, at - 1) new substr($0, at + length(old)); n++ } print }
        END { if (n != 1) exit 1 }' "$1/kept" > "$file" || { echo "$2 $name: the old text does not stand once"; cp "$1/kept" "$file"; return; }
    (cd "$1/crates/$2" && rt check) > "$1/out" 2>&1
    cp "$1/kept" "$file"
    if tail -n 1 "$1/out" | grep -q '^logic=proved'; then
        echo "$2 $name: SURVIVED"
    elif grep -q '^logic=not-proved' "$1/out"; then
        said=$(grep -m1 "^[^ ]*: error: \|^note: src/.*not proved" "$1/out" | grep -o "\(src\|proofs\)/[^:]*:[0-9]*")
        echo "$2 $name: refused at ${said:-its crate}"
    else
        echo "$2 $name: does not compile"
    fi
}

# Every second edit of a crate, from the one given on.
half() { # START CRATE
    copy=$work/copy$1
    i=0
    for edit in attacks/"$2"/*.edit; do
        [ -f "$edit" ] || continue
        [ $((i % 2)) -eq "$1" ] && try "$copy" "$2" "$top/$edit"
        i=$((i + 1))
    done
}

for j in 0 1; do
    mkdir "$work/copy$j"
    mkdir "$work/copy$j/crates"
    cp crates.txt "$work/copy$j/"
    for crate in crates/*; do
        mkdir "$work/copy$j/$crate"
        cp -r "$crate"/[!o]* "$work/copy$j/$crate/"
    done
done
for crate in "$@"; do
    half 0 "$crate" > "$work/said0" &
    half 1 "$crate" > "$work/said1"
    wait
    cat "$work/said0" "$work/said1"
    cat "$work/said0" "$work/said1" >> "$work/all"
done
echo "tried $(wc -l < "$work/all"), refused $(grep -c ': refused' "$work/all"), survived $(grep -c 'SURVIVED' "$work/all"), did not compile $(grep -c 'compile$\|once$' "$work/all")"
! grep -q 'SURVIVED' "$work/all"
