#!/bin/sh
# Compares the answers of `cmpca verify` with those of other implementations.
# Words: the program, or none for the one that is built from crates/cmpca.
# What can't be done for want of a tool is skipped, with a line that says so.
set -eu

here=$(cd "$(dirname "$0")" && pwd)
top=$(cd "$here/../.." && pwd)
program=${1:-}

if ! command -v python3 >/dev/null; then
    echo "skipped: no python3"
    exit 0
fi
if [ -z "$program" ]; then
    program=$("$top/bench/build.sh") || exit 0
fi

work=$(mktemp -d)
trap 'rm -rf "$work"' EXIT

jars=${BCJARS:-/usr/share/java}
path=$jars/bcpkix.jar:$jars/bcprov.jar:$jars/bcutil.jar
messages=
if ! command -v javac >/dev/null || ! command -v java >/dev/null; then
    echo "skipped: messages of Bouncy Castle (no JDK)"
elif [ ! -e "$jars/bcpkix.jar" ] || [ ! -e "$jars/bcprov.jar" ] || [ ! -e "$jars/bcutil.jar" ]; then
    echo "skipped: messages of Bouncy Castle ($jars has no bcpkix.jar, bcprov.jar and bcutil.jar: Debian's libbcpkix-java)"
else
    javac -cp "$path" -d "$work/classes" "$here/Messages.java"
    java -cp "$work/classes:$path" Messages "$work/messages"
    messages=$work/messages
fi

status=0
python3 -B "$here/interop.py" "$program" ${messages:+"$messages"} || status=$?

# The greatest input must not take much memory.
if [ -x /usr/bin/time ]; then
    python3 -B "$here/greatest.py" >"$work/greatest.der"
    /usr/bin/time -f %M -o "$work/memory" "$program" verify 7365637265742d31 <"$work/greatest.der" >"$work/answer" || true
    kib=$(tail -n 1 "$work/memory")
    echo "memory: $(cat "$work/answer") for $(wc -c <"$work/greatest.der") octets in $kib KiB (at most 8192)"
    [ "$kib" -le 8192 ] || status=1
else
    echo "skipped: memory (no /usr/bin/time: Debian's time)"
fi
exit $status
