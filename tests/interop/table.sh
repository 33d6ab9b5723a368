#!/bin/sh
# Sends `cmpca take` a message for each rule of what is refused and what is done, and compares each answer with what Python says.
# Words: the program, or none for the one that is built from crates/cmpca.
# Without Python it is skipped, with a line that says so.
set -eu

here=$(cd "$(dirname "$0")" && pwd)
top=$(cd "$here/../.." && pwd)
if ! command -v python3 >/dev/null; then
    echo "skipped: no python3"
    exit 0
fi
program=${1:-$("$top/bench/build.sh")} || exit 0

umask 077
work=$(mktemp -d)
trap 'rm -rf "$work"' EXIT
python3 -B "$here/table.py" "$program" "$work"
