#!/bin/sh
# Times appends to the journal on a real file beside the disk's own limit of two writes and two syncs an append,
# and beside one-row commits of SQLite (WAL, synchronous=FULL), in turns in one run; and mounts of 1,000,
# 10,000 and 100,000 payloads.
# Words: the folder to write in, or none for a new one below /var/tmp.
set -eu

here=$(cd "$(dirname "$0")" && pwd)
if ! command -v python3 >/dev/null; then
    echo "skipped: no python3"
    exit 0
fi
program=$("$here/build.sh" journal_bench) || exit 0
folder=$(mktemp -d -p "${1:-/var/tmp}")
trap 'rm -rf "$folder"' EXIT

limit="python3 -B $here/journal.py"
sqlite="SQLite=$limit sqlite $folder/sqlite"
if ! python3 -c "import sqlite3" 2>/dev/null; then
    echo "skipped: SQLite (Python has no sqlite3)"
    sqlite=
fi
# Short turns, and many: other work on the disk slows each of them.
python3 -B "$here/join.py" 40 "ours=$program append $folder/journal" "two syncs=$limit syncs $folder/syncs" ${sqlite:+"$sqlite"}
python3 -B "$here/join.py" 15 "ours=$program mount $folder/journal"
