#!/bin/sh
# Enrols a device with `cmpca` over files, with messages of Bouncy Castle, and compares each answer.
# Words: the program, or none for the one that is built from crates/cmpca.
# What can't be done for want of a tool is skipped, with a line that says so.
set -eu

here=$(cd "$(dirname "$0")" && pwd)
top=$(cd "$here/../.." && pwd)
. "$here/bouncy.sh"
program=${1:-$("$top/bench/build.sh")} || exit 0

umask 077
work=$(mktemp -d)
trap 'rm -rf "$work"' EXIT
vectors=$top/tests/vectors/java
javac -cp "$path" -d "$work/classes" "$vectors/Fixed.java" "$vectors/TakeVectors.java" "$here/TakeClient.java"
mkdir "$work/run"
python3 -B "$here/take.py" "$program" "$work/classes:$path" "$work/run"
