"""Prints CMP messages at the limits of what a header must have, with what each is refused for or asks.

The messages are put together here from X.690 and RFC 9810, 5.1; digests come from Python's hashlib. Senders and
recipients are dNSNames, which are short. The answers are written by hand.
"""

import hashlib


def element(tag: int, *parts: bytes) -> bytes:
    content = b"".join(parts)
    size = len(content)
    if size < 0x80:
        length = bytes([size])
    else:
        octets = size.to_bytes((size.bit_length() + 7) // 8, "big")
        length = bytes([0x80 | len(octets)]) + octets
    return bytes([tag]) + length + content


def oid(text: str) -> bytes:
    arcs = [int(arc) for arc in text.split(".")]
    content = b""
    for arc in [arcs[0] * 40 + arcs[1]] + arcs[2:]:
        octets = bytes([arc & 0x7F])
        while arc > 0x7F:
            arc >>= 7
            octets = bytes([0x80 | arc & 0x7F]) + octets
        content += octets
    return element(0x06, content)


def octets(tag: int, content: bytes | None) -> bytes:
    return b"" if content is None else element(tag, element(0x04, content))


NULL = element(0x05)
HMAC = element(0x30, oid("1.2.840.113549.2.9"), NULL)
KDF = element(0x30, oid("1.2.840.113549.1.5.12"), element(0x30, element(0x04, bytes(8)), element(0x02, b"\x01"), HMAC))
PBMAC1 = element(0x30, oid("1.2.840.113549.1.5.14"), element(0x30, KDF, HMAC))
HSS = element(0x30, oid("1.2.840.113549.1.9.16.3.17"))
HSS_NULL = element(0x30, oid("1.2.840.113549.1.9.16.3.17"), NULL)
PKICONF = element(0xB3, NULL)


def message(sender=b"a", pvno=b"\x02", alg=None, kid=None, tid=b"t", nonce=bytes(16), body=PKICONF) -> bytes:
    header = element(
        0x30,
        element(0x02, pvno),
        element(0x82, sender),
        element(0x82, b"z"),
        b"" if alg is None else element(0xA1, alg),
        octets(0xA2, kid),
        octets(0xA4, tid),
        octets(0xA5, nonce),
    )
    return element(0x30, header, body)


def nested(inner: bytes, **fields) -> bytes:
    return message(body=element(0xB4, element(0x30, inner)), **fields)


ROWS = [
    ("an octet behind it", "BadDataFormat", message() + b"\x00"),
    ("version 1, nothing else", "UnsupportedVersion", message(pvno=b"\x01", tid=None, nonce=None)),
    ("version 4", "UnsupportedVersion", message(pvno=b"\x04")),
    ("version 258", "UnsupportedVersion", message(pvno=b"\x01\x02")),
    ("no transactionID, no senderNonce", "BadDataFormat", message(tid=None, nonce=None)),
    ("a transactionID of 0 octets", "BadDataFormat", message(tid=b"")),
    ("a transactionID of 65 octets", "BadDataFormat", message(tid=bytes(65))),
    ("no senderNonce", "BadSenderNonce", message(nonce=None)),
    ("a senderNonce of 15 octets", "BadSenderNonce", message(nonce=bytes(15))),
    ("a senderNonce of 65 octets", "BadSenderNonce", message(nonce=bytes(65))),
    ("a nested one of version 1", "UnsupportedVersion", nested(message(), pvno=b"\x01")),
    ("version 3", "Go", message(pvno=b"\x03")),
    ("a transactionID of 64 octets", "Go", message(tid=bytes(64))),
    ("a senderNonce of 64 octets", "Go", message(nonce=bytes(64))),
    ("PBMAC1, a senderKID of 64 octets", "Mac", message(alg=PBMAC1, kid=bytes(64))),
    ("HSS/LMS, a senderKID of 65 octets", "Lms", message(alg=HSS, kid=bytes(65))),
    ("HSS/LMS with NULL", "None", message(alg=HSS_NULL, kid=b"k")),
    ("nested, by HSS/LMS", "Lms outside, PBMAC1 inside", nested(message(alg=PBMAC1, kid=b"in", tid=b"u"), sender=b"b", pvno=b"\x03", alg=HSS, kid=b"out")),
    ("nested, no message inside", "Go", nested(element(0x30), alg=HSS, kid=b"out")),
    ("nested, two messages", "Go", nested(message() + message())),
]

if __name__ == "__main__":
    for what, answer, text in ROWS:
        print(f"{what}: {answer}: {text.hex()}")
    INNER = message(alg=PBMAC1, kid=b"in", tid=b"u")
    print("digest of the inner:", hashlib.sha256(INNER).hexdigest())
    print("digest of PBMAC1:", hashlib.sha256(message(alg=PBMAC1, kid=bytes(64))).hexdigest())
    print("digest of 3000:", hashlib.sha256(element(0x30)).hexdigest())
