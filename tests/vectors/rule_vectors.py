"""Prints changes that may not come next, each with the length of the history of every kind of change that it stands behind.

The history is that of history_vectors.py. Which rule each change breaks is written down here by hand from the rules of the
history; the change of the same kind that is allowed there stands in the history itself. The octets are laid out as in
change_vectors.py.
"""

from change_vectors import MAC, NOW, credential, short, u8, u32, u64
from history_vectors import (CR, DEV_1, DEV_2, DEV_3, ENROL, HOLD, IR, P10CR, SIGNER, SIGNING, certificate, enlist, every_kind, found,
                             key, key_id, stamp, wish)

LMS = 2


def grant(who: bytes, number: int, tid: bytes, time: int, body: int, asked: bytes, serial: int, leaf: int,
          reply: int | None = None) -> bytes:
    return u8(4) + stamp(number, tid, who, time, reply) + u8(body) + asked + u64(serial) + u32(leaf)


def refused():
    """The length of the history, the rule that is broken, and the change."""
    yield 1, "a second Found", found()
    yield 2, "Enlist of a reference that is listed", enlist(NOW, credential(MAC, b"dev-1", b"secret-9", ENROL))
    yield 2, "Enlist of one reference twice", enlist(NOW, *2 * [credential(MAC, b"dev-9", b"secret-9", ENROL)])
    yield 2, "Enlist of nothing", enlist(NOW)
    yield 2, "Enlist of a key under another key's identifier", enlist(NOW, credential(LMS, key_id(key(0x92)), key(0x91), ENROL))
    yield 3, "Dismiss a second time", u8(3) + u64(NOW + 1) + DEV_3
    yield 3, "Dismiss of a reference that isn't listed", u8(3) + u64(NOW + 1) + u8(1) + short(b"dev-9")
    yield 3, "Grant to a dismissed reference", grant(DEV_3, 1, b"A", NOW + 2, IR, wish(key(0x40)), 3, 2)
    yield 3, "Grant with the next leaf but one", grant(DEV_1, 1, b"A", NOW + 2, IR, wish(key(0x40)), 4, 3)
    yield 3, "Grant with the number of its leaf", grant(DEV_1, 1, b"A", NOW + 2, IR, wish(key(0x40)), 2, 2)
    yield 3, "Grant before the time of the change before it", grant(DEV_1, 1, b"A", NOW, IR, wish(key(0x40)), 3, 2)
    yield 3, "Grant to a credential on hold", grant(DEV_2, 1, b"A", NOW + 2, IR, wish(key(0x40)), 3, 2)
    yield 4, "a second Grant of a transaction", grant(DEV_1, 2, b"A", NOW + 3, IR, wish(key(0x45)), 4, 3)
    yield 4, "Grant over a key that was granted", grant(DEV_1, 2, b"B", NOW + 3, IR, wish(key(0x40)), 4, 3)
    yield 4, "Grant of the digest of another message", grant(DEV_1, 1, b"B", NOW + 3, IR, wish(key(0x45)), 4, 3)
    yield 4, "Settled under another credential", u8(10) + stamp(2, b"A", DEV_2, NOW + 3) + u8(1)
    yield 4, "Settled at the deadline", u8(10) + stamp(2, b"A", DEV_1, NOW + 302) + u8(1)
    yield 4, "Lapse before the deadline", u8(12) + u64(NOW + 301) + short(b"A")
    yield 4, "Revoke of an open certificate", u8(11) + stamp(2, b"B", DEV_1, NOW + 3) + u64(3) + u8(4)
    yield 5, "Settled of a confirmed certificate", u8(10) + stamp(3, b"A", DEV_1, NOW + 3) + u8(1)
    yield 5, "Grant to a signing key without a Reply leaf", grant(SIGNING, 3, b"B", NOW + 4, CR, wish(key(0x41), 1), 4, 3)
    yield 5, "Grant under a secret with a Reply leaf", grant(DEV_1, 3, b"B", NOW + 4, CR, wish(key(0x41), 1), 4, 3, 0)
    yield 5, "Revoke by a credential that may not", u8(11) + stamp(3, b"B", DEV_2, NOW + 4) + u64(3) + u8(4)
    yield 6, "Hold by a credential that isn't on hold", u8(5) + stamp(4, b"C", DEV_1, NOW + 5) + u8(P10CR) + wish(key(0x42))
    yield 6, "Release of a transaction that isn't held", u8(6) + u64(NOW + 5) + short(b"C")
    yield 7, "Polled under another credential", u8(9) + stamp(5, b"C", DEV_1, NOW + 6)
    yield 9, "Deny of a transaction that was released", u8(7) + u64(NOW + 7) + short(b"C")
    yield 9, "Grant of another key than the one that was held", grant(DEV_2, 6, b"C", NOW + 8, P10CR, wish(key(0x45)), 5, 4)
    yield 9, "Grant of another body than the one that was held", grant(DEV_2, 6, b"C", NOW + 8, IR, wish(key(0x42)), 5, 4)
    yield 13, "Turned a second time", u8(8) + stamp(9, b"D", DEV_2, NOW + 11)
    yield 13, "Revoke with a Reply leaf that was used", u8(11) + stamp(9, b"E", SIGNING, NOW + 12, 0) + u64(4) + u8(4)
    yield 14, "Revoke a second time", u8(11) + stamp(10, b"G", SIGNING, NOW + 13, 2) + u64(4) + u8(4)
    yield 14, "Grant to the holder of a revoked certificate", grant(certificate(4), 10, b"F", NOW + 13, IR, wish(key(0x44)), 6, 5, 2)


def main() -> None:
    print("# made by Python's struct and hashlib; each stands behind so many changes of the history of every kind of change")
    lengths = len(list(every_kind()))
    for length, title, octets in refused():
        assert length <= lengths
        print(f"\n[{title}]\nbehind {length}\nchange {octets.hex()}")


if __name__ == "__main__":
    main()
