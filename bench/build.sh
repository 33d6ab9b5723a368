#!/bin/sh
# Builds a program of this repository where its sources are newer, and prints the program's path.
# Words: the crate, or none for cmpca. Where there is no crate or no rt, a line on standard error says so,
# and the status is 1.
set -eu

name=${1:-cmpca}
crate=$(cd "$(dirname "$0")/.." && pwd)/crates/$name
program=$crate/out/$name

if [ ! -d "$crate/src" ]; then
    echo "skipped: no crate $name" >&2
    exit 1
fi
if [ -x "$program" ] && [ -z "$(find "$crate/.." -name '*.rt' -newer "$program" -print -quit)" ]; then
    echo "$program"
    exit 0
fi
if ! command -v rt >/dev/null; then
    echo "skipped: $name isn't built (no rt)" >&2
    exit 1
fi
# With a word that they don't know the programs print their usage and end.
log=$(mktemp)
trap 'rm -f "$log"' EXIT
(cd "$crate" && rt run -- frob </dev/null >"$log" 2>&1) || true
if [ ! -x "$program" ]; then
    cat "$log" >&2
    echo "skipped: $name isn't built" >&2
    exit 1
fi
echo "$program"
