#!/bin/sh
# Compiles each client in clients/ over the sources of the crates that it uses. Each must be refused with just the errors that stand in
# its refused.txt, notes left out. (A client that uses the same calls as they are meant to be used is the crate `client`, which is proved.)
# Says nothing if all is as it should be; else it says what differs, and ends with status 1.
set -eu
cd "$(dirname "$0")/.."
tmp=$(mktemp -d)
trap 'rm -rf "$tmp"' EXIT
tar -cf - --exclude=out crates | tar -xf - -C "$tmp"
mkdir -p "$tmp/crates/refused/src"
for client in clients/*; do
    uses=$(sed -n 's/^use \([a-z_]*\)::.*/\1/p' "$client/lib.rt.txt" | sort -u | tr '\n' ' ')
    { cat crates.txt && echo "refused: $uses"; } >"$tmp/crates.txt"
    # with a test, so that there is something to run if it compiles
    { cat "$client/lib.rt.txt" && printf '\n#[test]\nfn compiles() {}\n'; } >"$tmp/crates/refused/src/lib.rt"
    if (cd "$tmp/crates/refused" && rt try --test) >"$tmp/said" 2>&1; then
        echo "$client is not refused, and must be" >&2
        exit 1
    fi
    sed -n -e 's/: note: .*//' -e 's/^[^ ]*: error/error/p' "$tmp/said" >"$tmp/errors"
    if ! cmp -s "$tmp/errors" "$client/refused.txt"; then
        echo "$client is refused, but not with what stands in its refused.txt; it was said:" >&2
        cat "$tmp/said" >&2
        exit 1
    fi
done
