#!/bin/sh
# Proves and builds a program of crates/ if that is due, and runs it on a sheet: sh tools/run-on-sheet.sh PROGRAM SHEET
set -eu
if [ $# -ne 2 ] || [ ! -r "$2" ]; then
    echo "usage: sh check.sh SHEET, or sh verdict.sh SHEET" >&2
    exit 2
fi
root=$(cd "$(dirname "$0")/.." && pwd)
log=$(mktemp)
trap 'rm -f "$log"' EXIT
if ! (cd "$root/crates/$1" && rt run) <"$2" 2>"$log"; then
    tail -n 20 "$log" >&2
    exit 1
fi
