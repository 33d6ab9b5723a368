"""Messages at the edges of the grammar, each with the right MAC over the octets as they stand.

`messages()` gives pairs of a title and the octets; the secret is `SECRET`. Which answer each deserves is
left to reference.py.
"""

import hashlib
import hmac

from reference import encoded, sequence

SECRET = b"secret-1"
SALT = bytes(range(8))
EMPTY_NAME = bytes.fromhex("a4023000")
NULL = bytes.fromhex("0500")
CONFIRM = encoded(0xB3, NULL)


def integer(value: int) -> bytes:
    return encoded(0x02, value.to_bytes((value if value >= 0 else ~value).bit_length() // 8 + 1, "big", signed=True))


def algorithm(oid: str, *parameters: bytes) -> bytes:
    return sequence(encoded(0x06, bytes.fromhex(oid)) + b"".join(parameters))


def octets(text: bytes) -> bytes:
    return encoded(0x04, text)


HMAC_SHA256 = algorithm("2a864886f70d0209", NULL)
VERSION = integer(2)


def derivation(*parts: bytes) -> bytes:
    return algorithm("2a864886f70d01050c", sequence(b"".join(parts)))


def pbmac1(kdf: bytes, mac: bytes = HMAC_SHA256) -> bytes:
    return algorithm("2a864886f70d01050e", sequence(kdf + mac))


USUAL = pbmac1(derivation(octets(SALT), integer(1), HMAC_SHA256))


def mac(header: bytes, body: bytes, rounds: int = 1, salt: bytes = SALT) -> bytes:
    key = hashlib.pbkdf2_hmac("sha256", SECRET, salt, rounds, 32)
    return hmac.digest(key, sequence(header + body), "sha256")


def header(named: bytes = USUAL, version: bytes = VERSION, sender: bytes = EMPTY_NAME,
           recipient: bytes = EMPTY_NAME, before: bytes = b"", after: bytes = b"") -> bytes:
    return sequence(version + sender + recipient + before + encoded(0xA1, named) + after)


def frame(head: bytes, body: bytes = CONFIRM, rest: bytes = b"", rounds: int = 1, salt: bytes = SALT) -> bytes:
    value = encoded(0x03, b"\x00" + mac(head, body, rounds, salt))
    return sequence(head + body + encoded(0xA0, value) + rest)


def field(number: int, content: bytes) -> bytes:
    return encoded(0xA0 + number, content)


def name(*relatives: bytes) -> bytes:
    return encoded(0xA4, sequence(b"".join(relatives)))


def pair(*parts: bytes) -> bytes:
    return encoded(0x31, sequence(b"".join(parts)))


def versions():
    for text in ("", "00", "7f", "80", "ff", "0002", "0080", "ff80", "ff7f", "01" * 20, "01" * 21, "00" + "80" + "00" * 18,
                 "00" + "80" + "00" * 19):
        yield f"version {text or 'without octets'}", frame(header(version=encoded(0x02, bytes.fromhex(text))))
    for tag in (0x01, 0x03, 0x0A, 0x22, 0x82):
        yield f"version under the tag {tag:02x}", frame(header(version=encoded(tag, b"\x02")))


def names():
    common = encoded(0x06, bytes.fromhex("550403"))
    text = encoded(0x0C, b"Fleet CA")
    for base in (0x00, 0x20, 0x40, 0x60, 0x80, 0xA0, 0xC0, 0xE0):
        for number in range(11):
            yield f"sender under the tag {base + number:02x}", frame(header(sender=encoded(base + number, b"a")))
    for base in (0x80, 0xA0):
        for number in (*range(4), *range(5, 9)):
            yield f"recipient under the tag {base + number:02x}, not looked into", frame(
                header(recipient=encoded(base + number, b"\xff\xff\x01")))
    yield "sender CN=Fleet CA", frame(header(sender=name(pair(common, text))))
    yield "sender of two parts in one set", frame(header(sender=name(encoded(0x31, sequence(common + text) * 2))))
    yield "sender of three sets", frame(header(sender=name(*[pair(common, text)] * 3)))
    yield "sender with an empty set", frame(header(sender=name(encoded(0x31, b""))))
    yield "sender with a sequence for the set", frame(header(sender=name(sequence(sequence(common + text)))))
    yield "sender with a type alone", frame(header(sender=name(pair(common))))
    yield "sender with two values", frame(header(sender=name(pair(common, text, text))))
    yield "sender with the value first", frame(header(sender=name(pair(text, common))))
    yield "sender with a value not looked into", frame(header(sender=name(pair(common, bytes.fromhex("3003ffffff")))))
    yield "sender with a value of a long tag", frame(header(sender=name(pair(common, bytes.fromhex("1f8101")))))
    yield "sender with a value of a loose length", frame(header(sender=name(pair(common, bytes.fromhex("0c810161")))))
    yield "sender with octets after the name", frame(header(sender=encoded(0xA4, sequence(b"") + NULL)))
    yield "sender with a set for the name", frame(header(sender=encoded(0xA4, encoded(0x31, b""))))
    for oid in ("", "80", "8003", "5504", "550403", "55ff", "55ff80", "558001", "ff7f", "5580", "5504800f"):
        odd = encoded(0x06, bytes.fromhex(oid))
        yield f"sender of the type {oid or 'without octets'}", frame(header(sender=name(pair(odd, text))))


def fields():
    octet = octets(b"12345678")
    for choice in range(32):
        chosen = b"".join(field(i + 2, octets(bytes([i]) * (i * 50))) for i in range(5) if choice >> i & 1)
        yield f"fields {choice:05b}", frame(header(after=chosen))
    for number in range(2, 10):
        yield f"field {number} before the algorithm", frame(header(before=field(number, octet)))
        yield f"field {number} twice", frame(header(after=field(number, octet) * 2))
        yield f"field {number} implicit", frame(header(after=encoded(0x80 + number, b"12345678")))
        yield f"field {number} constructed and implicit", frame(header(after=field(number, b"12345678")))
        yield f"field {number} empty", frame(header(after=field(number, b"")))
        yield f"field {number} of two", frame(header(after=field(number, octet * 2)))
        yield f"field {number} a text", frame(header(after=field(number, encoded(0x0C, b"12345678"))))
    for one in range(2, 7):
        for other in range(2, 7):
            yield f"fields {one} and {other}", frame(header(after=field(one, octet) + field(other, octet)))
    yield "the algorithm twice", frame(header(before=field(1, USUAL)))
    yield "a universal element after the fields", frame(header(after=octet))
    yield "a field that is cut off", frame(header(after=b"\xa4\x05\x04"))
    yield "no recipient", frame(sequence(VERSION + EMPTY_NAME + field(1, USUAL)))
    yield "a header under a set", frame(encoded(0x31, header()[2:]))
    yield "an empty header", frame(sequence(b""))


def times_texts_and_infos():
    time, text = field(0, encoded(0x18, b"20231114221320Z")), field(7, sequence(encoded(0x0C, b"text")))
    info = field(8, sequence(algorithm("2b0601050507040d", NULL)))
    for title, part in (("messageTime", time), ("freeText", text), ("generalInfo", info)):
        yield f"{title} before the algorithm", frame(header(before=part))
        yield f"{title} after the algorithm", frame(header(after=part))
        yield f"{title} twice", frame(header(before=part, after=part))
        yield f"{title} and an octet after the message", frame(header(after=part)) + b"\x00"
        yield f"{title} without protection", sequence(header(after=part) + CONFIRM)
        yield f"{title}, then what is no element", frame(header(after=part + b"\xa4\x05\x04"))
        yield f"{title} in a set for the header", frame(encoded(0x31, header(after=part)[2:]))
        yield f"{title}, a set for the message", b"\x31" + frame(header(after=part))[1:]
        yield f"{title}, nothing else", sequence(sequence(VERSION + EMPTY_NAME * 2 + part))
        yield f"{title}, then octets that are no element", sequence(sequence(VERSION + EMPTY_NAME * 2 + part) + b"\xff\xff\xff")
        yield f"{title} as recipient", frame(header(recipient=part))
        yield f"{title} as recipient, the algorithm left out", sequence(sequence(VERSION + EMPTY_NAME + part) + CONFIRM)
    for moment in ("19691231235959", "19700101000000", "20230229000000", "20240229235959", "21000229000000", "20231301000000",
                   "20231100000000", "20231131000000", "20231114240000", "20231114226000", "20231114221360", "2023111422132x"):
        part = field(0, encoded(0x18, moment.encode() + b"Z"))
        yield f"messageTime {moment}", frame(header(before=part))
    for content in (b"20231114221320", b"20231114221320.5Z", b"20231114221320+0000", b"231114221320Z", b""):
        yield f"messageTime {content!r}", frame(header(before=field(0, encoded(0x18, content))))
    yield "messageTime as UTCTime", frame(header(before=field(0, encoded(0x17, b"231114221320Z"))))
    for content in (b"", encoded(0x0C, b"\xff"), encoded(0x0C, b"\xed\xa0\x80"), encoded(0x16, b"text"), encoded(0x0C, "\u00fc\U0001f600".encode())):
        yield f"freeText {content.hex() or 'without texts'}", frame(header(after=field(7, sequence(content))))
    for content in (b"", algorithm("2b0601050507040d"), sequence(b""), algorithm("2b", NULL, NULL), NULL):
        yield f"generalInfo {content.hex() or 'without entries'}", frame(header(after=field(8, sequence(content))))


def bodies():
    for tag in (*range(0x80, 0x9F), *range(0xA0, 0xBF), 0x30, 0x60, 0xE0, 0x05):
        yield f"body under the tag {tag:02x}", frame(header(), encoded(tag, NULL))
    for content in (b"", b"\xff", b"\x30\x80\x00\x00", b"\x04\x81\x01\x00", b"\x00" * 300):
        yield f"body that isn't looked into, {len(content)} octets", frame(header(), encoded(0xB4, content))
    yield "no body", sequence(header() + encoded(0xA0, encoded(0x03, b"\x00" + mac(header(), b""))))
    yield "two bodies", frame(header(), CONFIRM * 2)


def protections():
    head, right = header(), mac(header(), CONFIRM)
    for title, part in (
        ("one unused bit", encoded(0xA0, encoded(0x03, b"\x01" + right[:-1] + bytes([right[-1] & 0xFE])))),
        ("eight unused bits", encoded(0xA0, encoded(0x03, b"\x08" + right))),
        ("no octet", encoded(0xA0, encoded(0x03, b""))),
        ("no bits", encoded(0xA0, encoded(0x03, b"\x00"))),
        ("31 octets", encoded(0xA0, encoded(0x03, b"\x00" + right[:31]))),
        ("33 octets", encoded(0xA0, encoded(0x03, b"\x00" + right + b"\x00"))),
        ("an OCTET STRING", encoded(0xA0, octets(right))),
        ("a constructed BIT STRING", encoded(0xA0, encoded(0x23, encoded(0x03, b"\x00" + right)))),
        ("implicit", encoded(0x80, b"\x00" + right)),
        ("two of them in one", encoded(0xA0, encoded(0x03, b"\x00" + right) * 2)),
        ("twice", encoded(0xA0, encoded(0x03, b"\x00" + right)) * 2),
        ("none", b""),
    ):
        yield f"protection, {title}", sequence(head + CONFIRM + part)
        yield f"protection, {title}, and certificates", sequence(head + CONFIRM + part + encoded(0xA1, sequence(b"")))
    good = encoded(0xA0, encoded(0x03, b"\x00" + right))
    for content in ("", "00", "3000", "3080", "05000500", "ffffff"):
        yield f"certificates {content or 'empty'}", frame(head, rest=encoded(0xA1, bytes.fromhex(content)))
    yield "certificates twice", frame(head, rest=encoded(0xA1, b"") * 2)
    yield "certificates before the protection", sequence(head + CONFIRM + encoded(0xA1, b"") + good)
    yield "certificates, primitive", frame(head, rest=encoded(0x81, b""))
    yield "a third part", frame(head, rest=encoded(0xA2, b""))
    plain = sequence(VERSION + EMPTY_NAME * 2)
    yield "protection without an algorithm", sequence(plain + CONFIRM + good)
    yield "neither protection nor algorithm", sequence(plain + CONFIRM)
    yield "an octet after the message", frame(head) + b"\x00"
    yield "a set for the message", b"\x31" + frame(head)[1:]
    yield "no octets", b""
    yield "one octet", b"\x30"


def salts_and_counts():
    for size in (0, 7, 8, 9, 63, 64, 65, 127, 128):
        salt = bytes(size)
        yield f"salt of {size} octets", frame(header(pbmac1(derivation(octets(salt), integer(1), HMAC_SHA256))), salt=salt)
    # A count that were cut to 32 or 64 bits would be 1.
    for count in (-1, 0, 1, 2, 200_000, 200_001, 2**31, 2**32 + 1, 2**64 + 1, 2**128 + 1, 2**160 + 1):
        rounds = count if 1 <= count <= 200_000 else 1
        yield f"count {count}", frame(header(pbmac1(derivation(octets(SALT), integer(count), HMAC_SHA256))), rounds=rounds)
    for length in (0, 16, 31, 32, 33, 64, 2**32 + 32, 2**64 + 32, -32):
        named = pbmac1(derivation(octets(SALT), integer(1), integer(length), HMAC_SHA256))
        yield f"keyLength {length}", frame(header(named))
    yield "keyLength with a loose zero", frame(header(pbmac1(derivation(octets(SALT), integer(1), encoded(2, b"\x00\x20"), HMAC_SHA256))))
    yield "count with a loose zero", frame(header(pbmac1(derivation(octets(SALT), encoded(2, b"\x00\x01"), HMAC_SHA256))))


def algorithms():
    sha1, sha512 = algorithm("2a864886f70d0207", NULL), algorithm("2a864886f70d020b", NULL)
    bare, odd = algorithm("2a864886f70d0209"), algorithm("2a864886f70d0209", integer(0))
    full_null = algorithm("2a864886f70d0209", b"\x05\x01\x00")
    three = algorithm("2a864886f70d0209", NULL, NULL)
    for title, part in (("usual", HMAC_SHA256), ("without parameters", bare), ("with an INTEGER", odd), ("with a full NULL", full_null),
                        ("with two parameters", three), ("SHA-1", sha1), ("SHA-512", sha512), ("absent", b""), ("a NULL", NULL)):
        yield f"prf {title}", frame(header(pbmac1(derivation(octets(SALT), integer(1), part))))
        yield f"mac {title}", frame(header(pbmac1(derivation(octets(SALT), integer(1), HMAC_SHA256), part)))
    usual = derivation(octets(SALT), integer(1), HMAC_SHA256)
    inner = sequence(octets(SALT) + integer(1) + HMAC_SHA256)
    for title, named in (
        ("PBES2 for PBKDF2", pbmac1(algorithm("2a864886f70d01050d", inner))),
        ("PBKDF2 without parameters", pbmac1(algorithm("2a864886f70d01050c"))),
        ("PBKDF2 with one part more", pbmac1(derivation(octets(SALT), integer(1), HMAC_SHA256, NULL))),
        ("PBKDF2 with two keyLengths", pbmac1(derivation(octets(SALT), integer(1), integer(32), integer(32), HMAC_SHA256))),
        ("salt from another source", pbmac1(derivation(algorithm("2a"), integer(1), HMAC_SHA256))),
        ("count first", pbmac1(derivation(integer(1), octets(SALT), HMAC_SHA256))),
        ("count as ENUMERATED", pbmac1(derivation(octets(SALT), b"\x0a\x01\x01", HMAC_SHA256))),
        ("parameters with one part more", algorithm("2a864886f70d01050e", sequence(usual + HMAC_SHA256 + NULL))),
        ("parameters without the MAC", algorithm("2a864886f70d01050e", sequence(usual))),
        ("parameters under a set", algorithm("2a864886f70d01050e", encoded(0x31, usual + HMAC_SHA256))),
        ("parameters not looked into", algorithm("2a864886f70d01050e", bytes.fromhex("3003ffffff"))),
        ("no parameters", algorithm("2a864886f70d01050e")),
        ("two parameters", algorithm("2a864886f70d01050e", sequence(usual + HMAC_SHA256), NULL)),
        ("HSS/LMS", algorithm("2a864886f70d0109100311")),
        ("an OID without octets", algorithm("")),
        ("an OID with a loose part", algorithm("2a8001")),
        ("an OID that is cut off", algorithm("2a86")),
        ("no OID", sequence(NULL)),
        ("an empty sequence", sequence(b"")),
        ("a NULL", NULL),
    ):
        yield f"algorithm: {title}", frame(header(named))
    yield "algorithm: implicit", frame(sequence(VERSION + EMPTY_NAME * 2 + encoded(0xA1, USUAL[2:])))


def sizes():
    for size in (127, 128, 255, 256, 65_535, 65_536, 131_071, 131_072, 131_073, 140_000):
        low = size - 145
        for content in range(max(low, 0), low + 24):
            message = frame(header(), encoded(0xB5, bytes(content)))
            if len(message) == size:
                yield f"{size} octets", message
                break
    yield "a length that is more than there is", b"\x30\x84\xff\xff\xff\xff" + frame(header())[2:]
    yield "a length of five octets", b"\x30\x85\x00\x00\x00\x00\x7f" + frame(header())[2:]
    yield "a length of 126 octets", b"\x30\xfe" + bytes(200)


def messages():
    for part in (versions, names, fields, times_texts_and_infos, bodies, protections, salts_and_counts, algorithms, sizes):
        yield from part()
