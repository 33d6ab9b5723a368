"""Prints a history that has a certificate and a request in each state, change by change in octets, and the lines that tell how
it stands.

The lines are written by hand from their rules. The octets are laid out as in change_vectors.py. The key of certificates has a
tree of 32 leaves, and that of replies one of 1,024.
"""

from change_vectors import FLEET_CA, ISSUE, LMS, MAC, NOW, blob, credential, run, short, u8, u32, u64
from history_vectors import DEV_1, DEV_2, ENROL, HOLD, IR, REVOKE, SIGNER, SIGNING, enlist, key, key_id, show, stamp, wish

WIDE_REPLY = u32(1) + u32(6) + u32(4) + run(0xA0, 16) + run(0x30, 32)


def grant(number: int, tid: bytes, who: bytes, time: int, first: int, serial: int, leaf: int | None = None,
          flags: int = 0) -> bytes:
    return (u8(4) + stamp(number, tid, who, NOW + time, leaf) + u8(IR) + wish(key(first), flags) + u64(serial)
            + u32(serial - 1))


def settled(number: int, tid: bytes, time: int, outcome: int) -> bytes:
    return u8(10) + stamp(number, tid, DEV_1, NOW + time) + u8(outcome)


def hold(number: int, tid: bytes, time: int, first: int) -> bytes:
    return u8(5) + stamp(number, tid, DEV_2, NOW + time) + u8(IR) + wish(key(first))


def release(tid: bytes, time: int) -> bytes:
    return u8(6) + u64(NOW + time) + short(tid)


def every_state():
    yield "Found", (
        u8(1) + u64(NOW) + blob(FLEET_CA) + ISSUE + WIDE_REPLY + u32(300) + u32(300) + u32(1000) + u32(60) + u32(365))
    yield "Enlist of dev-1, dev-2 (hold) and a signing key (revoke)", enlist(
        NOW, credential(MAC, b"dev-1", b"secret-1", ENROL), credential(MAC, b"dev-2", b"secret-2", ENROL | HOLD),
        credential(LMS, key_id(SIGNER), SIGNER, ENROL | REVOKE))
    yield "Grant 3 in A", grant(1, b"A", DEV_1, 1, 0x40, 3)
    yield "Settled of A, accepted", settled(2, b"A", 2, 1)
    yield "Grant 4 in B", grant(3, b"B", DEV_1, 3, 0x41, 4)
    yield "Settled of B, rejected", settled(4, b"B", 4, 2)
    yield "Grant 5 in C", grant(5, b"C", DEV_1, 5, 0x42, 5)
    yield "Hold of Z", hold(6, b"Z", 6, 0x43)
    yield "Hold of Y", hold(7, b"Y", 7, 0x44)
    yield "Release of Y", release(b"Y", 8)
    yield "Hold of X", hold(8, b"X", 9, 0x45)
    yield "Deny of X", u8(7) + u64(NOW + 10) + short(b"X")
    yield "Hold of D", hold(9, b"D", 11, 0x46)
    yield "Release of D", release(b"D", 12)
    yield "Grant 6 in E to the signing key, implicit", grant(10, b"E", SIGNING, 13, 0x47, 6, 0, 1)
    yield "Revoke of 6 in F, reason 4", u8(11) + stamp(11, b"F", SIGNING, NOW + 14, 1) + u64(6) + u8(4)
    yield "Grant 7 in D", grant(12, b"D", DEV_2, 20, 0x46, 7)
    yield "Lapse of C", u8(12) + u64(NOW + 308) + short(b"C")


LINES = """\
changes 18
issue 7 of 32
reply 2 of 1024
cert 3 confirmed 41
cert 4 revoked rejected 42
cert 5 revoked timeout 43
cert 6 revoked 4 45
cert 7 open 1700000320 44
held 5a
released 59
denied 58"""

if __name__ == "__main__":
    print("# made by Python's struct and hashlib")
    show("every state", every_state(), LINES)
