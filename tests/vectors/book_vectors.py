"""Prints the log of a leaf book, octet by octet: the key that Bouncy Castle made, and leaf 0, given to `text number 0`.

A log is an octet 1, the magic CMPLEAF, and for each payload an octet 1, its length in four octets and its octets; an octet 0 stands
behind the last one. The first payload is an octet 1 and the LMS public key (RFC 8554, 5.3); then each is an octet 2, the leaf in four
octets and the SHA-256 of its text.
"""

from hashlib import sha256

from change_vectors import blob, u8

KEY = bytes.fromhex(
    "0000000500000004808182838485868788898a8b8c8d8e8f"
    "809456a93ffb329cd3ac34051b37722a08ef8e5ee986256ebdb49ad7b1981bf8"
)


def leaf(number: int, text: bytes) -> bytes:
    return u8(1) + blob(u8(2) + number.to_bytes(4, "big") + sha256(text).digest())


FRONT = u8(1) + b"CMPLEAF" + u8(1) + blob(u8(1) + KEY)

if __name__ == "__main__":
    print("# made by Python's hashlib")
    print(f"\n[a book]\nfront {FRONT.hex()}\nleaf {leaf(0, b'text number 0').hex()}")
