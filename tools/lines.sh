#!/bin/sh
# Prints a table of each crate's lines of code, specification and proof, and how many edits its check must refuse.
set -eu
cd "$(dirname "$0")/.."
count() {
    find "$1" -name "$2" -type f -exec cat {} + 2>/dev/null | wc -l | tr -d ' '
}
echo "| crate | code | specs | proofs | edits refused |"
echo "|---|---|---|---|---|"
sed -e 's/#.*//' -e '/:/!d' -e 's/:.*//' crates.txt | while read -r crate; do
    dir=crates/$crate
    edits=$(find "$dir/must-fail" -name '*.edit' 2>/dev/null | wc -l | tr -d ' ')
    echo "| $crate | $(count "$dir/src" '*.rt') | $(count "$dir/specs" '*.antt') | $(count "$dir/proofs" '*.antt') | $edits |"
done
