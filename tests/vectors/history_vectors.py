"""Prints two histories of the authority, change by change in octets, and what each answers.

One is a device's enrolment with its confirmation; the other has a change of each kind. The answers are written down here by
hand from the rules of the history; identifiers of keys are computed by hashlib. The octets are laid out as in
change_vectors.py.
"""

import hashlib

from change_vectors import (DEVICE, FLEET_CA, ISSUE, KEY_USAGE, LMS, MAC, NOW, REPLY, SENDER, TID, blob, credential, run, short,
                            u8, u16, u32, u64)

IR, CR, P10CR, KUR = 0, 2, 4, 7
ENROL, REVOKE, HOLD = 1, 8, 16


def key(first: int) -> bytes:
    """An HSS key of one level: u32(1), tree 5, LM-OTS 4, I and node 1."""
    return u32(1) + u32(5) + u32(4) + run(first, 48)


def key_id(octets: bytes) -> bytes:
    return hashlib.sha256(octets).digest()[:20]


def listed(kind: int, identifier: bytes) -> bytes:
    return u8(kind) + short(identifier)


def certificate(serial: int) -> bytes:
    return u8(3) + u64(serial)


def stamp(number: int, tid: bytes, who: bytes, time: int, leaf: int | None = None) -> bytes:
    """The stamp of the message with this number: its digest and its words are 32 octets each that begin with the number."""
    last = u8(0) if leaf is None else u8(1) + u32(leaf)
    return (short(tid) + run(number, 32) + who + blob(SENDER) + u8(2) + short(run(0x50, 16)) + run(0x80 + number, 32) + u64(time)
            + last)


def wish(octets: bytes, flags: int = 0) -> bytes:
    info = bytes.fromhex("304e300d060b2a864886f70d0109100311033d00") + octets
    return blob(DEVICE) + blob(info) + blob(KEY_USAGE) + u8(flags)


def found() -> bytes:
    return u8(1) + u64(NOW) + blob(FLEET_CA) + ISSUE + REPLY + u32(300) + u32(300) + u32(1000) + u32(60) + u32(365)


def enlist(time: int, *credentials: bytes) -> bytes:
    return u8(2) + u64(time) + u16(len(credentials)) + b"".join(credentials)


DEV_1, DEV_2, DEV_3 = listed(MAC, b"dev-1"), listed(MAC, b"dev-2"), listed(MAC, b"dev-3")
SIGNER = key(0x90)
SIGNING = listed(LMS, key_id(SIGNER))


def enrolment():
    yield "Found", found()
    yield "Enlist of dev-1", enlist(NOW, credential(MAC, b"dev-1", b"secret-1", ENROL))
    yield "Grant", u8(4) + stamp(1, TID, DEV_1, NOW) + u8(IR) + wish(key(0x40)) + u64(3) + u32(2)
    yield "Settled, accepted", u8(10) + stamp(2, TID, DEV_1, NOW) + u8(1)


def every_kind():
    yield "Found", found()
    yield "Enlist of dev-1, dev-2 (hold), dev-3 and a signing key (revoke)", enlist(
        NOW, credential(MAC, b"dev-1", b"secret-1", ENROL), credential(MAC, b"dev-2", b"secret-2", ENROL | HOLD),
        credential(MAC, b"dev-3", b"secret-3", ENROL), credential(LMS, key_id(SIGNER), SIGNER, ENROL | REVOKE))
    yield "Dismiss of dev-3", u8(3) + u64(NOW + 1) + DEV_3
    yield "Grant 3 in A to dev-1", u8(4) + stamp(1, b"A", DEV_1, NOW + 2) + u8(IR) + wish(key(0x40)) + u64(3) + u32(2)
    yield "Settled of A, accepted", u8(10) + stamp(2, b"A", DEV_1, NOW + 3) + u8(1)
    yield "Grant 4 in B to the signing key, implicit", (
        u8(4) + stamp(3, b"B", SIGNING, NOW + 4, 0) + u8(CR) + wish(key(0x41), 1) + u64(4) + u32(3))
    yield "Hold of C by dev-2", u8(5) + stamp(4, b"C", DEV_2, NOW + 5) + u8(P10CR) + wish(key(0x42))
    yield "Polled of C", u8(9) + stamp(5, b"C", DEV_2, NOW + 6)
    yield "Release of C", u8(6) + u64(NOW + 7) + short(b"C")
    yield "Grant 5 in C to dev-2", u8(4) + stamp(6, b"C", DEV_2, NOW + 8) + u8(P10CR) + wish(key(0x42)) + u64(5) + u32(4)
    yield "Hold of D by dev-2", u8(5) + stamp(7, b"D", DEV_2, NOW + 9) + u8(IR) + wish(key(0x43))
    yield "Deny of D", u8(7) + u64(NOW + 10) + short(b"D")
    yield "Turned of D", u8(8) + stamp(8, b"D", DEV_2, NOW + 11)
    yield "Revoke of 4 in E by the signing key, reason 4", u8(11) + stamp(9, b"E", SIGNING, NOW + 12, 1) + u64(4) + u8(4)
    yield "Grant 6 in F to dev-1", u8(4) + stamp(10, b"F", DEV_1, NOW + 13) + u8(IR) + wish(key(0x44)) + u64(6) + u32(5)
    yield "Settled of F, rejected", u8(10) + stamp(11, b"F", DEV_1, NOW + 14) + u8(2)
    yield "Lapse of C", u8(12) + u64(NOW + 308) + short(b"C")


ENROLMENT_ANSWERS = """\
certificate 3 confirmed; transaction 00..0f closed; leaves issue 3, reply 0; nonce of 00..0f 82..91
dev-1 good with right 1; over the key of certificate 3 good as certificate 3 with right 1 up to 1731535999, barred from 1731536000 on
before Settled: certificate 3 open until 1700000300"""

EVERY_KIND_ANSWERS = """\
certificate 3 confirmed, 4 revoked (asked, 4), 5 revoked (timeout), 6 revoked (rejected), 7 none
transaction A closed, B closed, C closed, D denied and told, E other, F closed, G unused
after 7 changes C held; after 9 released; after 10 open (5, 1700000308)
leaves issue 6, reply 2; nonce of A 82..91, B 83..92, C 86..95, D 88..97, E 89..98, F 8b..9a, G none
dev-1 good with right 1, dev-2 good with right 17, dev-3 barred, dev-4 unknown, dev-1 as a key of the other kind
the signing key good with right 9; the key of 3 good as certificate 3, those of 4, 5 and 6 barred"""


def show(title: str, changes, answers: str) -> None:
    print(f"\n[{title}]")
    for name, octets in changes:
        print(f"# {name}\nchange {octets.hex()}")
    print("\n".join(f"# {line}" for line in answers.splitlines()))


def main() -> None:
    print("# made by Python's struct and hashlib")
    show("an enrolment", enrolment(), ENROLMENT_ANSWERS)
    show("every kind of change", every_kind(), EVERY_KIND_ANSWERS)
    print("\n[identifiers of keys]")
    print(f"issue {key_id(ISSUE).hex()}\nreply {key_id(REPLY).hex()}\nsigning {key_id(SIGNER).hex()}")
    for first in range(0x40, 0x46):
        print(f"key {first:02x} {key_id(key(first)).hex()}")


if __name__ == "__main__":
    main()
