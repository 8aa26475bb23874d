#!/bin/sh
# Proves every crate, tries the edits that must be refused, runs the programs and the tests (`rt ci`), and then sees that no edit is a
# bad one, that `check_sheet` and `verdict` say of the example sheets what they should, and that the clients in clients/ are refused.
# What follows `rt ci` says nothing where all is well, so that the last line is its `N passed, 0 failed`.
set -eu
cd "$(dirname "$0")"
tmp=$(mktemp -d)
trap 'rm -rf "$tmp"' EXIT
{
    status=0
    rt ci || status=$?
    echo "$status" >"$tmp/status"
} | tee "$tmp/said"
status=$(cat "$tmp/status")
if [ "$status" != 0 ]; then
    exit "$status"
fi
if ! grep '^rt: ok' "$tmp/said" | grep -qv ', [0-9][0-9]* bad'; then
    echo "rt ci's line 'rt: ok' counts bad edits: each edit is to be refused for what it means" >&2
    exit 1
fi
sh tools/compare-sheets.sh check_sheet sheets/answers.txt
sh tools/compare-sheets.sh verdict sheets/verdicts.txt
sh tools/refused-clients.sh
