#!/bin/sh
# Measures `cmpca serve`: new enrolments and stored replies a second, over 1 and 8 connections that are kept, beside a bare server in C
# that syncs twice a request, beside the two syncs alone, and beside the mock server of `openssl cmp`; and where the time of a new
# enrolment goes.
# Words: the number of enrolments for each, or none for 400. Its ratios are of one run on one machine.
set -eu

here=$(cd "$(dirname "$0")" && pwd)
for tool in python3 cc; do
    if ! command -v $tool >/dev/null; then
        echo "skipped: no $tool"
        exit 0
    fi
done
program=$("$here/build.sh") || exit 0
umask 077
work=$(mktemp -d -p /var/tmp)
trap 'rm -rf "$work"' EXIT
cc -O2 -pthread -D_GNU_SOURCE -o "$work/serve" "$here/serve.c"
python3 -B "$here/serve.py" "$program" "$work/serve" "$work" "${1:-400}"
