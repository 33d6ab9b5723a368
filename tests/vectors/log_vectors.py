"""Prints logs as they stand on a disk, record by record, and where a damaged one is damaged.

A log is a gate (an octet 1), the seven octets CMPLOG1, for each change a gate, its length in four octets and its octets, and
behind the last one a closed gate (an octet 0). Each change is laid out as in change_vectors.py.
"""

from change_vectors import MAC, NOW, credential, u8, u32
from history_vectors import DEV_2, ENROL, HOLD, P10CR, enlist, enrolment, key, stamp, wish

FRONT = u8(1) + b"CMPLOG1"


def record(change: bytes) -> bytes:
    return u8(1) + u32(len(change)) + change


def main() -> None:
    founded, listed, granted, _ = (record(octets) for _, octets in enrolment())
    holder = record(enlist(NOW, credential(MAC, b"dev-2", b"secret-2", ENROL | HOLD)))
    held = record(u8(5) + stamp(4, b"C", DEV_2, NOW + 5) + u8(P10CR) + wish(key(0x42)))
    print("# made by Python's struct and hashlib")
    print(f"\n[an enrolment]\n# before the first record\nfront {FRONT.hex()}")
    print(f"# Found\nrecord {founded.hex()}\n# Enlist of dev-1\nrecord {listed.hex()}")
    print(f"# Grant, open until 1700000300\nrecord {granted.hex()}")
    print(f"\n[a held request, behind Found]\n# Enlist of dev-2 (hold)\nrecord {holder.hex()}\n# Hold of C\nrecord {held.hex()}")
    print("\n[the log of Found and Enlist of dev-1, damaged]")
    print(f"# 01ffffffff for the closed gate: damaged at {len(FRONT + founded + listed)}")
    print(f"# no closed gate: damaged at {len(FRONT + founded)}")


if __name__ == "__main__":
    main()
