"""Prints PBMAC1-protected CMP messages as text, and writes the first one to a file where one is named.

The messages are put together here from X.690 and RFC 9810, 5.1, and the MACs come from Python's
hashlib and hmac (OpenSSL). All are protected under the secret `secret-1`.
"""

import hashlib
import hmac
import sys

SECRET = b"secret-1"
EMPTY_NAME = bytes.fromhex("a4023000")


def length_octets(length: int) -> bytes:
    """The definite form with the fewest octets (X.690, 10.1)."""
    if length < 0x80:
        return bytes([length])
    octets = length.to_bytes((length.bit_length() + 7) // 8, "big")
    return bytes([0x80 | len(octets)]) + octets


def element(tag: int, *parts: bytes) -> bytes:
    content = b"".join(parts)
    return bytes([tag]) + length_octets(len(content)) + content


def oid(text: str) -> bytes:
    arcs = [int(arc) for arc in text.split(".")]
    content = b""
    for arc in [40 * arcs[0] + arcs[1]] + arcs[2:]:
        part = bytes([arc & 0x7F])
        while arc := arc >> 7:
            part = bytes([0x80 | arc & 0x7F]) + part
        content += part
    return element(0x06, content)


NULL = element(0x05)
HMAC_SHA256 = element(0x30, oid("1.2.840.113549.2.9"), NULL)


def integer(value: int) -> bytes:
    return element(0x02, value.to_bytes(value.bit_length() // 8 + 1, "big"))


def pbmac1(salt: bytes, rounds: int) -> bytes:
    """The AlgorithmIdentifier of PBMAC1 (RFC 8018, A.5)."""
    kdf = element(0x30, oid("1.2.840.113549.1.5.12"),
                  element(0x30, element(0x04, salt), integer(rounds), HMAC_SHA256))
    return element(0x30, oid("1.2.840.113549.1.5.14"), element(0x30, kdf, HMAC_SHA256))


def mac(salt: bytes, rounds: int, header: bytes, body: bytes) -> bytes:
    key = hashlib.pbkdf2_hmac("sha256", SECRET, salt, max(rounds, 1), 32)
    return hmac.new(key, element(0x30, header, body), hashlib.sha256).digest()


def frame(salt: bytes = bytes(range(8)), rounds: int = 1, after: bytes = b"") -> tuple[bytes, bytes]:
    """A pkiconf under PBMAC1 with `after` behind the recipient: its protected part, and the whole."""
    header = element(0x30, integer(2), EMPTY_NAME, EMPTY_NAME, after, element(0xA1, pbmac1(salt, rounds)))
    body = element(0xB3, NULL)
    value = mac(salt, rounds, header, body)
    protection = element(0xA0, element(0x03, b"\x00", value))
    return element(0x30, header, body), element(0x30, header, body, protection)


def show(title: str, message: bytes, expected: str) -> None:
    print(f"\n[{title}]")
    print(f"length   {len(message)}")
    print(f"message  {message.hex()}")
    print(f"expected {expected}")


def main() -> None:
    print(f"# Messages for the secret {SECRET.hex()}; made from X.690, RFC 9810 and RFC 8018, the MACs by Python's hashlib and hmac")
    part, good = frame()
    assert len(part) == 92 and len(good) == 129 and good[:2] == b"\x30\x7f"
    assert part.hex() == (
        "305a3054020102a4023000a4023000a147304506092a864886f70d01050e3038302806092a864886f70d01050c301b0408000102"
        "0304050607020101300c06082a864886f70d02090500300c06082a864886f70d02090500b3020500")
    show("pkiconf, salt 00 to 07, 1 iteration", good, "protection verified, status 0")
    print(f"mac      {good[-32:].hex()}")
    print(f"the protected part {part.hex()}")
    print("derived key        "
          + hashlib.pbkdf2_hmac("sha256", SECRET, bytes(range(8)), 1, 32).hex())

    show("the same, last octet of the MAC xor 1", good[:-1] + bytes([good[-1] ^ 1]),
         "refused badMessageCheck, status 1")

    loose = b"\x30\x81\x80\x30\x81\x54" + good[4:]
    assert len(loose) == 131
    show("the same, header's length as 81 54, message's length as 81 80", loose,
         "refused badDataFormat, status 1")

    _, short_salt = frame(salt=bytes(range(7)))
    assert len(short_salt) == 128 and short_salt[:2] == b"\x30\x7e"
    show("salt of 7 octets", short_salt, "refused badAlg, status 1")
    _, no_rounds = frame(rounds=0)
    assert len(no_rounds) == 129
    show("0 iterations", no_rounds, "refused badAlg, status 1")
    _, many_rounds = frame(rounds=200001)
    assert len(many_rounds) == 132 and many_rounds[:3] == b"\x30\x81\x81"
    show("200,001 iterations", many_rounds, "refused badAlg, status 1")

    time = element(0xA0, element(0x18, b"20231114221320Z"))
    _, timed = frame(after=time)
    old_mac = timed[:-32] + good[-32:]
    assert len(timed) == 149 and timed[:3] == b"\x30\x81\x92" and timed[3:5] == b"\x30\x67"
    show("messageTime present, the MAC of the first message", old_mac,
         "refused badMessageCheck, status 1")
    show("messageTime present, its own MAC", timed,
         "protection verified, status 0")

    header = element(0x30, integer(2), EMPTY_NAME, EMPTY_NAME, element(0xA1, pbmac1(bytes(range(8)), 1)))
    body = element(0xB3, NULL)
    show("no protection", element(0x30, header, body), "refused badMessageCheck, status 1")
    bare = element(0x30, integer(2), EMPTY_NAME, EMPTY_NAME)
    show("no protectionAlg", element(0x30, bare, body, element(0xA0, element(0x03, b"\x00", bytes(32)))),
         "refused badMessageCheck, status 1")

    part, slow = frame(rounds=200000)
    show("200,000 iterations, the greatest count", slow, "protection verified, status 0")
    if len(sys.argv) > 1:
        with open(sys.argv[1], "wb") as file:
            file.write(good)


if __name__ == "__main__":
    main()
