#!/bin/sh
# Times the reading of CMP messages beside OpenSSL and Bouncy Castle, on one core, in turns in one run: messages and octets
# a second, and how many times the others' speed ours is. Says how our time grows with the length of a row.
# Bouncy Castle makes the messages (java/ReadMessages.java).
set -eu

here=$(cd "$(dirname "$0")" && pwd)
. "$here/../tests/interop/bouncy.sh"
program=$("$here/build.sh" read_bench) || exit 0

work=$(mktemp -d)
trap 'rm -rf "$work"' EXIT
javac -cp "$path" -d "$work/classes" "$here/java/ReadMessages.java" "$here/java/ReadBench.java"
mkdir "$work/messages"
java -cp "$work/classes:$path" ReadMessages "$work/messages"

core=
if command -v taskset >/dev/null; then
    core="taskset -c 0"
fi
openssl=
if cc -O2 -o "$work/read" "$here/read.c" -lcrypto 2>"$work/errors"; then
    openssl="OpenSSL=$core $work/read"
else
    echo "skipped: OpenSSL ($(head -n 1 "$work/errors"); it needs a C compiler and Debian's libssl-dev)"
fi
python3 -B "$here/read.py" "$work/messages" "ours=$core $program time" ${openssl:+"$openssl"} \
    "Bouncy Castle=$core java -cp $work/classes:$path ReadBench"
