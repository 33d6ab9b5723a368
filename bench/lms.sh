#!/bin/sh
# Times LM-OTS and LMS of this repository beside Bouncy Castle, on one core, in turns in one run. Says how the times
# grow with the height, and how far growing is from the time of its compressions alone.
# Words: `quick` leaves out the tree of height 15.
set -eu

here=$(cd "$(dirname "$0")" && pwd)
jar=${BCPROV:-/usr/share/java/bcprov.jar}
for tool in python3 javac java; do
    if ! command -v $tool >/dev/null; then
        echo "skipped: no $tool"
        exit 0
    fi
done
if [ ! -e "$jar" ]; then
    echo "skipped: $jar is missing (Debian's libbcprov-java)"
    exit 0
fi
program=$("$here/build.sh" lms_bench) || exit 0

classes=$(mktemp -d)
trap 'rm -rf "$classes"' EXIT
javac -cp "$jar" -d "$classes" \
    "$here/../tests/vectors/java/org/bouncycastle/pqc/crypto/lms/Inside.java" "$here/java/LmsBench.java"
core=
if command -v taskset >/dev/null; then
    core="taskset -c 0"
fi
python3 -B "$here/lms.py" 2 "ours=$core $program $*" "Bouncy Castle=$core java -cp $classes:$jar LmsBench $*"
