#!/bin/sh
# Lets `cmpca` meet what is hostile or fails, and looks that nothing is lost or given twice.
# Words: the program, or none (or "") for the one that is built from crates/cmpca; then a part (damaged, filled, killed, served or mutated)
# and its number, or none for all parts with small numbers.
# Without Python it is skipped, with a line that says so.
set -eu

here=$(cd "$(dirname "$0")" && pwd)
top=$(cd "$here/../.." && pwd)
if ! command -v python3 >/dev/null; then
    echo "skipped: no python3"
    exit 0
fi
program=${1:-$("$top/bench/build.sh")} || exit 0

umask 077
work=$(mktemp -d)
trap 'rm -rf "$work"' EXIT

part() {
    mkdir "$work/$1"
    echo "$1:"
    python3 -B "$here/$1.py" "$program" "$work/$1" "$2"
}

if [ $# -gt 2 ]; then
    part "$2" "$3"
    exit
fi
failed=0
part damaged 3 || failed=1
part filled 50 || failed=1
part killed 200 || failed=1
part served 100 || failed=1
part mutated 300 || failed=1
exit $failed
