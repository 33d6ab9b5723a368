#!/bin/sh
# Runs `cmpca` over real files as an operator may have them: in use by another process, one file for two roles, of other modes, read only,
# on a full disk, and behind a pipe whose reads a signal interrupts.
# Words: the program, or none for the one that is built from crates/cmpca.
# Without Python it is skipped, with a line that says so; so is each part that the system doesn't let it do. Ends with the counts.
set -eu

here=$(cd "$(dirname "$0")" && pwd)
top=$(cd "$here/../.." && pwd)
if ! command -v python3 >/dev/null; then
    echo "skipped: no python3"
    exit 0
fi
program=${1:-$("$top/bench/build.sh")} || exit 0

work=$(mktemp -d)
trap 'rm -rf "$work"' EXIT
chmod 755 "$work"
python3 -B "$here/files.py" "$program" "$work"
