"""Prints changes of the history with their octets, one of each kind and one at the ends of the ranges.

Numbers are big-endian. A `short` is one octet of length, 0 to 64, and that many octets; a `blob` is four octets of
length and that many octets. A record is a line in brackets and lines of a name, a blank and a value.
"""

import struct


def u8(value: int) -> bytes:
    return struct.pack(">B", value)


def u16(value: int) -> bytes:
    return struct.pack(">H", value)


def u32(value: int) -> bytes:
    return struct.pack(">I", value)


def u64(value: int) -> bytes:
    return struct.pack(">Q", value)


def short(octets: bytes) -> bytes:
    assert len(octets) <= 64
    return u8(len(octets)) + octets


def blob(octets: bytes) -> bytes:
    return u32(len(octets)) + octets


def run(first: int, count: int) -> bytes:
    return bytes((first + i) % 256 for i in range(count))


NOW = 1_700_000_000
TID = run(0x00, 16)
MAC, LMS = 1, 2
# SEQUENCE { SET { SEQUENCE { 2.5.4.3, UTF8String } } }
FLEET_CA = bytes.fromhex("30133111300f06035504030c08466c656574204341")
DEVICE = bytes.fromhex("30133111300f06035504030c086465766963652d31")
SENDER = bytes.fromhex("a415") + DEVICE
# HSS/LMS over the 60 octets 40, 41, ..
KEY = run(0x40, 60)
KEY_INFO = bytes.fromhex("304e300d060b2a864886f70d0109100311033d00") + KEY
KEY_USAGE = bytes.fromhex("300e0603551d0f0101ff040403020780")
# u32(1), tree 5, LM-OTS 4, I and node 1
ISSUE = u32(1) + u32(5) + u32(4) + run(0x80, 16) + run(0x10, 32)
REPLY = u32(1) + u32(5) + u32(4) + run(0xA0, 16) + run(0x30, 32)

LISTED_MAC = u8(1) + short(b"dev-1")
LISTED_LMS = u8(2) + short(run(0x90, 20))
BY_CERTIFICATE = u8(3) + u64(3)


def stamp(tid: bytes = TID, who: bytes = LISTED_MAC, sender: bytes = SENDER, nonce: bytes = run(0x50, 16), time: int = NOW,
          leaf: int | None = None) -> bytes:
    digest, words, pvno = run(0xC0, 32), run(0xE0, 32), 2
    last = u8(0) if leaf is None else u8(1) + u32(leaf)
    return short(tid) + digest + who + blob(sender) + u8(pvno) + short(nonce) + words + u64(time) + last


def wish(extensions: bytes = KEY_USAGE, flags: int = 0) -> bytes:
    return blob(DEVICE) + blob(KEY_INFO) + blob(extensions) + u8(flags)


def credential(kind: int, identifier: bytes, material: bytes, rights: int) -> bytes:
    return u8(kind) + short(identifier) + short(material) + u8(rights)


def changes():
    dev_1 = credential(MAC, b"dev-1", b"secret-1", 1)
    signing = credential(LMS, run(0x90, 20), KEY, 1 | 2 | 4 | 8 | 16)
    found = u64(NOW) + blob(FLEET_CA) + ISSUE + REPLY
    yield "Found", u8(1) + found + u32(300) + u32(300) + u32(1000) + u32(60) + u32(365)
    yield "Found, the greatest settings", u8(1) + found + u32(604_800) + u32(86_400) + u32(200_000) + u32(86_400) + u32(36_500)
    yield "Enlist of dev-1", u8(2) + u64(NOW) + u16(1) + dev_1
    yield "Enlist of dev-1 and a signing key with every right", u8(2) + u64(NOW) + u16(2) + dev_1 + signing
    yield "Dismiss of dev-1", u8(3) + u64(NOW) + LISTED_MAC
    yield "Dismiss of a signing key", u8(3) + u64(NOW) + LISTED_LMS
    for body in (0, 2, 4, 7):
        yield f"Grant, body {body}", u8(4) + stamp() + u8(body) + wish() + u64(3) + u32(2)
    yield "Grant to a certificate, with a Reply leaf, implicit and changed", (
        u8(4) + stamp(who=BY_CERTIFICATE, leaf=7) + u8(7) + wish(b"", 3) + u64(2**64 - 1) + u32(2**32 - 1))
    yield "Hold", u8(5) + stamp(who=LISTED_LMS, leaf=0) + u8(4) + wish(flags=1)
    yield "Release", u8(6) + u64(NOW) + short(b"\x41")
    yield "Deny", u8(7) + u64(NOW) + short(run(0x01, 64))
    yield "Turned", u8(8) + stamp(leaf=31)
    yield "Polled", u8(9) + stamp(tid=b"\x00", nonce=run(0x00, 64), time=250_000_000_000)
    yield "Settled, accepted", u8(10) + stamp() + u8(1)
    yield "Settled, rejected", u8(10) + stamp() + u8(2)
    yield "Revoke", u8(11) + stamp(sender=bytes.fromhex("a4023000")) + u64(3) + u8(4)
    yield "Lapse", u8(12) + u64(NOW + 300) + short(TID)


def main() -> None:
    print("# made by Python's struct from the table of changes")
    print("# tid 00..0f, digest c0..df, words e0..ff, sender a4 around CN=device-1, nonce 50..5f, pvno 2, time 1,700,000,000")
    print("# dev-1: secret secret-1; a signing key: identifier 90..a3, key 40..7b")
    for title, octets in changes():
        print(f"\n[{title}]\nlength {len(octets)}\nchange {octets.hex()}")
    release = dict(changes())["Release"]
    assert release.hex() == "06000000006553f1000141"
    print(f"\n[Release in the journal, behind its gate]\nrecord {(u8(1) + blob(release)).hex()}")


if __name__ == "__main__":
    main()
