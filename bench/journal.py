"""Prints the time of one append to a file, in nanoseconds, by other means than the journal's.

Words: `syncs`, which writes a record, syncs, writes one octet and syncs, or `sqlite`, which commits a row; and a
path, where what stands is replaced. One payload has 500 octets.
"""

import os
import sys
import time

APPENDS = 100
PAYLOAD = bytes(range(250)) * 2


def append_with_two_syncs(path: str) -> int:
    file = os.open(path, os.O_RDWR | os.O_CREAT | os.O_TRUNC, 0o600)
    gate = 8
    start = time.perf_counter_ns()
    for _ in range(APPENDS):
        record = len(PAYLOAD).to_bytes(4, "big") + PAYLOAD + b"\x00"
        os.pwrite(file, record, gate + 1)
        os.fdatasync(file)
        os.pwrite(file, b"\x01", gate)
        os.fdatasync(file)
        gate += len(record)
    nanos = time.perf_counter_ns() - start
    os.close(file)
    return nanos


def commit_with_sqlite(path: str) -> int:
    import sqlite3

    for suffix in ("", "-wal", "-shm"):
        if os.path.exists(path + suffix):
            os.remove(path + suffix)
    base = sqlite3.connect(path, isolation_level=None)
    base.execute("PRAGMA journal_mode=WAL")
    base.execute("PRAGMA synchronous=FULL")
    base.execute("CREATE TABLE log (place INTEGER PRIMARY KEY, payload BLOB)")
    start = time.perf_counter_ns()
    for _ in range(APPENDS):
        base.execute("INSERT INTO log (payload) VALUES (?)", (PAYLOAD,))
    nanos = time.perf_counter_ns() - start
    base.close()
    return nanos


def main() -> None:
    append = {"syncs": append_with_two_syncs, "sqlite": commit_with_sqlite}[sys.argv[1]]
    print(f"append\t{append(sys.argv[2]) // APPENDS}")


if __name__ == "__main__":
    main()
