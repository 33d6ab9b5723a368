#!/bin/sh
# Times `cmpca verify` at 200,000 rounds of PBKDF2 beside Python's hashlib (OpenSSL), in turns in one run.
set -eu

here=$(cd "$(dirname "$0")" && pwd)
if ! command -v python3 >/dev/null; then
    echo "skipped: no python3"
    exit 0
fi
program=${1:-$("$here/build.sh")} || exit 0
exec python3 -B "$here/pbkdf2.py" "$program"
