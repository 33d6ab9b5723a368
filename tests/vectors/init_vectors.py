"""Prints what `init` makes of settings and a key file: the line that tells the authority's identity, and the journal.

A key file is the seed and the identifier of the key that signs certificates, then those of the key that signs replies. The
public keys are grown by check_lms.py, which is RFC 8554 over hashlib; the identity is the identifier and the root of each (5.3).
Words: none, for the vector of the tests; or a key file, for its line alone, with trees of height 5 and w = 8.
"""

import sys

from change_vectors import FLEET_CA, NOW, blob, run, u8, u32, u64
from check_lms import public_key

# seeds 00, 01, .. and ff, fe, ..; identifiers 80, 81, .. and 7f, 7e, ..
KEY_FILE = run(0x00, 32) + run(0x80, 16) + bytes(range(0xFF, 0xDF, -1)) + bytes(range(0x7F, 0x6F, -1))


def keys(file: bytes, issue_ots: int, reply_ots: int) -> tuple[bytes, bytes]:
    """The two public keys, without their number of levels, for trees of height 5."""
    assert len(file) == 96 and file[32:48] != file[80:96]
    return public_key(5, issue_ots, file[:32], file[32:48]), public_key(5, reply_ots, file[48:80], file[80:])


def line(issue: bytes, reply: bytes) -> str:
    return f"founded {(issue[8:] + reply[8:]).hex()}"


def journal(issue: bytes, reply: bytes) -> bytes:
    """The front, the one record behind its gate, and a closed gate."""
    numbers = u32(300) + u32(300) + u32(1000) + u32(60) + u32(365)
    found = u8(1) + u64(NOW) + blob(FLEET_CA) + u32(1) + issue + u32(1) + reply + numbers
    return u8(1) + b"CMPLOG1" + u8(1) + blob(found) + u8(0)


def main() -> None:
    if len(sys.argv) > 1:
        with open(sys.argv[1], "rb") as file:
            print(line(*keys(file.read(), 4, 4)))
        return
    issue, reply = keys(KEY_FILE, 1, 2)
    print("# made by Python's hashlib and struct")
    print("\n[Fleet CA at 1,700,000,000; issue_tree and reply_tree 5, issue_ots 1, reply_ots 2]")
    print(f"key_file {KEY_FILE.hex()}\nline {line(issue, reply)}\njournal {journal(issue, reply).hex()}")


if __name__ == "__main__":
    main()
