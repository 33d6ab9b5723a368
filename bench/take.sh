#!/bin/sh
# Times one `cmpca take` by the height of the reply key, and says where the seconds go.
# Words: the heights (5, 10, 15), or none for 5 and 10.
set -eu

here=$(cd "$(dirname "$0")" && pwd)
if ! command -v python3 >/dev/null; then
    echo "skipped: no python3"
    exit 0
fi
program=$("$here/build.sh") || exit 0
umask 077
work=$(mktemp -d -p /var/tmp)
trap 'rm -rf "$work"' EXIT

[ $# -gt 0 ] || set -- 5 10
python3 -B "$here/take.py" "$program" "$work" "$@"
