"""The answer that `cmpca verify SECRET` owes to an input, read slowly from the rules.

A message is taken apart whole, element by element, by X.690 (DER), RFC 9810, 5.1 and RFC 8018, A.5,
with the limits of this service. Python's hashlib and hmac (OpenSSL) make the MAC.
"""

import hashlib
import hmac
from typing import NamedTuple

VERIFIED = "protection verified"
BAD_FORM, BAD_CHECK, BAD_ALG = "refused badDataFormat", "refused badMessageCheck", "refused badAlg"

GREATEST_INPUT = 131_072
GREATEST_ROUNDS = 200_000
PBMAC1 = bytes.fromhex("2a864886f70d01050e")
PBKDF2 = bytes.fromhex("2a864886f70d01050c")
HMAC_SHA256 = bytes.fromhex("2a864886f70d0209")


class BadForm(Exception):
    """The octets aren't in the grammar."""


class BadAlg(Exception):
    """The algorithm isn't PBMAC1 within the limits."""


def require(holds: bool) -> None:
    if not holds:
        raise BadForm


def element(octets: bytes) -> tuple[int, bytes, bytes, bytes]:
    """Tag, content and whole of the first element, and what follows it (X.690, 8.1 and 10.1)."""
    require(len(octets) >= 2)
    tag, first = octets[0], octets[1]
    require(tag & 0x1F != 0x1F)
    start, length = 2, first
    if first >= 0x80:
        count = first - 0x80
        require(1 <= count <= 4 and len(octets) >= 2 + count)
        start, length = 2 + count, int.from_bytes(octets[2 : 2 + count], "big")
        require(octets[2] != 0 and length >= 0x80)
    end = start + length
    require(len(octets) >= end)
    return tag, octets[start:end], octets[:end], octets[end:]


def one(octets: bytes) -> tuple[int, bytes]:
    tag, content, _, rest = element(octets)
    require(not rest)
    return tag, content


def items(content: bytes) -> list[tuple[int, bytes]]:
    found = []
    while content:
        tag, inner, _, content = element(content)
        found.append((tag, inner))
    return found


def typed(item: tuple[int, bytes], tag: int) -> bytes:
    require(item[0] == tag)
    return item[1]


def integer(item: tuple[int, bytes]) -> int:
    content = typed(item, 0x02)
    require(1 <= len(content) <= 20)
    if len(content) > 1:
        require(not (content[0] == 0x00 and content[1] < 0x80) and not (content[0] == 0xFF and content[1] >= 0x80))
    return int.from_bytes(content, "big", signed=True)


def oid(item: tuple[int, bytes]) -> bytes:
    content = typed(item, 0x06)
    require(bool(content) and content[-1] < 0x80 and content[0] != 0x80)
    for before, after in zip(content, content[1:]):
        require(before >= 0x80 or after != 0x80)
    return content


def name(item: tuple[int, bytes]) -> None:
    for relative in items(typed(item, 0x30)):
        pairs = items(typed(relative, 0x31))
        require(bool(pairs))
        for pair in pairs:
            parts = items(typed(pair, 0x30))
            require(len(parts) == 2)
            oid(parts[0])


def general_name(item: tuple[int, bytes]) -> None:
    tag, content = item
    require(tag & 0xC0 == 0x80 and tag & 0x1F <= 8)
    # Of the nine kinds only the constructed directoryName is looked into; a primitive one is taken as it is.
    if tag == 0xA4:
        name(one(content))


def algorithm(item: tuple[int, bytes]) -> tuple[bytes, tuple[int, bytes] | None]:
    parts = items(typed(item, 0x30))
    require(1 <= len(parts) <= 2)
    return oid(parts[0]), parts[1] if len(parts) == 2 else None


def utf8(item: tuple[int, bytes]) -> None:
    try:
        typed(item, 0x0C).decode("utf-8")
    except UnicodeDecodeError:
        raise BadForm from None


def is_hmac(item: tuple[int, bytes]) -> bool:
    name_of, parameters = algorithm(item)
    return name_of == HMAC_SHA256 and parameters in (None, (0x05, b""))


def mac_parameters(name_of: bytes, parameters: tuple[int, bytes] | None) -> tuple[bytes, int]:
    """Salt and rounds (RFC 8018, A.5 and A.2); salts of 8 to 64 octets, 1 to 200,000 rounds."""
    try:
        require(name_of == PBMAC1 and parameters is not None)
        derivation, mac = items(typed(parameters, 0x30))
        kdf, inner = algorithm(derivation)
        require(kdf == PBKDF2 and inner is not None and is_hmac(mac))
        parts = items(typed(inner, 0x30))
        require(len(parts) in (3, 4) and is_hmac(parts[-1]))
        salt, rounds = typed(parts[0], 0x04), integer(parts[1])
        require(8 <= len(salt) <= 64 and 1 <= rounds <= GREATEST_ROUNDS)
        require(len(parts) == 3 or integer(parts[2]) == 32)
        return salt, rounds
    except (BadForm, ValueError):
        raise BadAlg from None


def header_algorithm(content: bytes):
    """The grammar of PKIHeader (RFC 9810, 5.1.1); gives protectionAlg or None."""
    parts = items(content)
    require(len(parts) >= 3)
    integer(parts[0])
    general_name(parts[1])
    general_name(parts[2])
    found, last = None, -1
    for tag, inner in parts[3:]:
        number = tag - 0xA0
        require(last < number <= 8)
        last = number
        if number == 0:
            generalized_time(one(inner))
        elif number == 1:
            found = algorithm(one(inner))
        elif number <= 6:
            typed(one(inner), 0x04)
        else:
            texts = items(typed(one(inner), 0x30))
            require(bool(texts))
            for text in texts:
                utf8(text) if number == 7 else algorithm(text)
    return found


def generalized_time(item: tuple[int, bytes]) -> None:
    content = typed(item, 0x18)
    require(len(content) == 15 and content[14:] == b"Z" and content[:14].isdigit())
    text = content.decode("ascii")
    year, month, day = int(text[:4]), int(text[4:6]), int(text[6:8])
    hour, minute, second = int(text[8:10]), int(text[10:12]), int(text[12:14])
    leap = year % 4 == 0 and (year % 100 != 0 or year % 400 == 0)
    require(year >= 1970 and 1 <= month <= 12 and hour <= 23 and minute <= 59 and second <= 59)
    days = (31, 29 if leap else 28, 31, 30, 31, 30, 31, 31, 30, 31, 30, 31)[month - 1]
    require(1 <= day <= days)


class Frame(NamedTuple):
    """A message taken apart, its body and certificates not looked into."""

    header: bytes
    body: bytes
    named: tuple[bytes, tuple[int, bytes] | None] | None
    mac: bytes | None
    certificates: bytes


def frame(message: bytes) -> Frame:
    """The grammar of PKIMessage (RFC 9810, 5.1) down to the header's fields."""
    require(len(message) <= GREATEST_INPUT)
    tag, inner, header, content = element(typed(one(message), 0x30))
    require(tag == 0x30)
    named = header_algorithm(inner)
    tag, _, body, content = element(content)
    require(0xA0 <= tag <= 0xA0 + 26)
    mac = None
    if content and content[0] == 0xA0:
        _, inner, _, content = element(content)
        bits = typed(one(inner), 0x03)
        require(bits[:1] == b"\x00")
        mac = bits[1:]
    if content:
        typed(one(content), 0xA1)
    return Frame(header, body, named, mac, content)


def mac_of(found: Frame, secret: bytes) -> bytes:
    """The MAC over the header and the body as they stand (RFC 9810, 5.1.3; RFC 8018, 7.1)."""
    salt, rounds = mac_parameters(*found.named)
    key = hashlib.pbkdf2_hmac("sha256", secret, salt, rounds, 32)
    return hmac.digest(key, sequence(found.header + found.body), "sha256")


def verdict(message: bytes, secret: bytes) -> str:
    """The answer to a message under a secret."""
    try:
        found = frame(message)
        if found.mac is None or found.named is None:
            return BAD_CHECK
        return VERIFIED if mac_of(found, secret) == found.mac else BAD_CHECK
    except BadForm:
        return BAD_FORM
    except BadAlg:
        return BAD_ALG


def sequence(content: bytes) -> bytes:
    return encoded(0x30, content)


def encoded(tag: int, content: bytes) -> bytes:
    length = len(content)
    if length < 0x80:
        return bytes([tag, length]) + content
    octets = length.to_bytes((length.bit_length() + 7) // 8, "big")
    return bytes([tag, 0x80 | len(octets)]) + octets + content
