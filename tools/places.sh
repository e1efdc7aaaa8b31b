#!/bin/sh
# Counts places in the sources that an older language left behind: the eight points of docs/DESIGN-PASS.md.
# Usage: tools/places.sh [-l] [CHECKOUT]; -l lists the places, too.
list=0
[ "$1" = -l ] && { list=1; shift; }
cd "${1:-.}" || exit 1
sources=$(find crates -name out -prune -o -name target -prune -o -path '*/src/*.rt' -print | sort)

point() { # name, pattern
    found=$(grep -nE "$2" $sources)
    count=$(printf '%s' "$found" | grep -c .)
    printf '%3d  %s\n' "$count" "$1"
    [ $list = 1 ] && [ "$count" -gt 0 ] && printf '%s\n' "$found" | sed 's/^/        /'
}

after() { # name, pattern, pattern of the next line
    found=$(grep -nE -A1 "$2" $sources | grep -E "$3")
    count=$(printf '%s' "$found" | grep -c .)
    printf '%3d  %s\n' "$count" "$1"
    [ $list = 1 ] && [ "$count" -gt 0 ] && printf '%s\n' "$found" | sed 's/^/        /'
}

echo "1 values that stand for absence or for a refusal, numbers for kinds, results handed on by hand"
point "a value that stands for none" 'const NOWHERE|usize::MAX;|Targets \{ n: 0'
point "a number in the place of a kind or a form" '^ *(family|form): u8|fn (family_of|family_number|form_number)\(|number\(?\)? == 17'
point "an error handed on by a match" 'Err\((fault|rejected)\) => (return |Err)|Ok\(live\) => Ok\(live\)'
after "an absence handed on by an else" '(let Some.*|^ *\}) else \{$' 'return (None|Err\(Fault)'
echo "2 twins"
point "a function that only gives another one its buffers" 'fn (keeps_unit|attempt|correct_into|add|one|light_message)<'
point "the same step for each place, for another kind" 'fn (add_multiple\(&self, factor: u8, row: &\[u8\], sums: &mut \[u8\]\)$|add_bits|add_residues|add_polynomials)'
point "the way from a file to its live scheme, written out" 'files::read\(file\)\?;|match read\('
point "a refusal by its numbers, for tests" 'fn (told|refused|refusal|reading|writing)\(.*(u8|u64|Told)'
echo "3 loops over numbers"
point "a counter stepped by hand" '^ *(while |loop \{)'
point "a for over a range of numbers" '^ *for \w+ in [^{]*\.\.'
echo "4 conversion, copying and defaults by hand"
point "bytes of a number" '(\* 256|/ 256|% 256)'
point "a tally of zeros" 'blocks: 0,$'
point "fields brought into variables to be printed" 'let \w+ = (tally|found|code|self|rejected)\.(number\(\)|first\(\)|second\(\)|\w+);'
point "a range asked by two comparisons" '(< [0-9]+ \|\| .* > |value < low)'
echo "5 facts repeated in contracts, parameters that travel together"
point "a requires about the size of rows, a list's length, n, k, t, w, b, or a tally" 'requires \w* ?\{ (\(*(0 < k|k < n|n ≤ 64|2 ≤ [bw])|length rows|n ≡ \(L|tally|d ≤ 5|\(length (message|word|image))'
point "a parameter list that has rows or list beside n" '^ *rows: &\[u8\],$|list: &L, .*n: '
echo "6 buffers with a length beside, parallel arrays"
point "an array of fixed length" '(: |\[0u(8|64); |mut )(\[?u(8|64); (5|16|64|512)\]?)|= \[(0u8|0u64|NOWHERE); (16|64|512)\]'
point "a table of rows in one list of bytes" 'words: Vec<u8>'
echo "7 switches on which step to run"
point "a method that only asks its variant" 'File(Kind|List)::\w+\((kind|list)\) => (kind|list)\.'
exit 0
