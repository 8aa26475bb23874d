#!/bin/sh
# Runs a program, as `rt ci` built it, on every example sheet, and compares the first line of what it says with a file that has a line
# for each sheet: sh tools/compare-sheets.sh PROGRAM FILE
# Says nothing if all is as it should be; else it says what differs, and ends with status 1.
set -eu
cd "$(dirname "$0")/.."
program=$1
answers=$2
while IFS=: read -r sheet answer; do
    if ! text=$("crates/$program/out/$program" <"$sheet"); then
        echo "$sheet: $program failed" >&2
        exit 1
    fi
    said=$(printf '%s\n' "$text" | head -n 1)
    if [ " $said" != "$answer" ]; then
        echo "$sheet: $program said '$said', and $answers has '$answer'" >&2
        exit 1
    fi
done <"$answers"
for sheet in sheets/*.sheet crates/tour/data/*.sheet; do
    if ! grep -q "^$sheet: " "$answers"; then
        echo "$sheet has no line in $answers" >&2
        exit 1
    fi
done
