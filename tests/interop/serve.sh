#!/bin/sh
# Lets `cmpca serve` answer over HTTP: devices of Python and of Bouncy Castle that enrol, renew, wait and revoke; requests of curl and by
# hand that are turned away; peers that are slow, silent or cut off; orders that come while it serves; a disk that fails; a kill, and a
# start on the same port; words, files and ports that are refused.
# Words: the program, or none for the one that is built from crates/cmpca.
# What can't be done for want of a tool is skipped, with a line that says so. Ends with the counts.
set -eu

here=$(cd "$(dirname "$0")" && pwd)
top=$(cd "$here/../.." && pwd)
if ! command -v python3 >/dev/null; then
    echo "skipped: no python3"
    exit 0
fi
program=${1:-$("$top/bench/build.sh")} || exit 0

umask 077
work=$(mktemp -d)
trap 'rm -rf "$work"' EXIT
exec 3>&1
path=$(. "$here/bouncy.sh" >&3; echo "$path")
classes=
if [ -n "$path" ]; then
    classes=$work/classes:$path
    vectors=$top/tests/vectors/java
    javac -cp "$path" -d "$work/classes" "$vectors/Fixed.java" "$vectors/TakeVectors.java" "$here/TakeClient.java"
fi
python3 -B "$here/serve.py" "$program" "$work" "$classes"
