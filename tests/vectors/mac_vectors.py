"""Prints vectors of HMAC-SHA-256 and PBKDF2-HMAC-SHA-256 as text.

The expected MACs of RFC 4231 are written out here from that document and are held against
Python's hmac (OpenSSL). The PBKDF2 values come from hashlib.pbkdf2_hmac (OpenSSL) and are
held against the definition of RFC 8018, 5.2, written out below with hmac alone.
"""

import hashlib
import hmac

# RFC 4231, 4.2 to 4.8: (case, section, key, data, HMAC-SHA-256)
RFC4231 = [
    (1, "4.2", b"\x0b" * 20, b"Hi There",
     "b0344c61d8db38535ca8afceaf0bf12b881dc200c9833da726e9376c2e32cff7"),
    (2, "4.3", b"Jefe", b"what do ya want for nothing?",
     "5bdcc146bf60754e6a042426089575c75a003f089d2739839dec58b964ec3843"),
    (3, "4.4", b"\xaa" * 20, b"\xdd" * 50,
     "773ea91e36800e46854db8ebd09181a72959098b3ef8c122d9635514ced565fe"),
    (4, "4.5", bytes(range(1, 26)), b"\xcd" * 50,
     "82558a389a443c0ea4cc819899f2083a85f0faa3e578f8077a2e3ff46729665b"),
    (6, "4.7", b"\xaa" * 131, b"Test Using Larger Than Block-Size Key - Hash Key First",
     "60e431591ee0b67f0d8a26aacbf5b77f8e0bc6213728c5140546040f0ee37f54"),
    (7, "4.8", b"\xaa" * 131,
     b"This is a test using a larger than block-size key and a larger than block-size data. "
     b"The key needs to be hashed before being used by the HMAC algorithm.",
     "9b09ffa71b942fcb27635fbcd5b0e944bfdc63644f0713938a7f51535c3a35e2"),
]

# (secret, salt, rounds), each with one block of 32 octets
PBKDF2 = [
    (b"secret-1", bytes(range(8)), 1),
    (b"secret-1", bytes(range(8)), 2),
    (b"secret-1", bytes(range(8)), 4096),
    (b"secret-1", bytes(range(64)), 1),
    (bytes(range(64)), bytes(range(64)), 4096),
    # A key over the block size is hashed first (RFC 2104, section 2)
    (bytes(range(65)), bytes(range(100, 116)), 2),
    (b"password", b"salt", 4096),
    (b"secret-1", bytes(range(8)), 1000),
]


def pbkdf2(secret: bytes, salt: bytes, rounds: int) -> bytes:
    """The first block, T_1 = U_1 xor .. xor U_c (RFC 8018, 5.2)."""
    last = hmac.new(secret, salt + b"\x00\x00\x00\x01", hashlib.sha256).digest()
    total = int.from_bytes(last, "big")
    for _ in range(rounds - 1):
        last = hmac.new(secret, last, hashlib.sha256).digest()
        total ^= int.from_bytes(last, "big")
    return total.to_bytes(32, "big")


def rust(octets: bytes) -> str:
    return 'b"' + "".join(f"\\x{o:02x}" for o in octets) + '"'


def main() -> None:
    print("# HMAC-SHA-256: RFC 4231, sections 4.2 to 4.8 (case 5 truncates and is left out)")
    for case, section, key, data, expected in RFC4231:
        assert hmac.new(key, data, hashlib.sha256).hexdigest() == expected, case
        print(f"\n[RFC 4231, {section}, case {case}]")
        print(f"key  ({len(key)} octets) {key.hex()}")
        print(f"data ({len(data)} octets) {data.hex()}")
        print(f"mac  {expected}")
        print(f"mac as a byte string {rust(bytes.fromhex(expected))}")
    print("\n# PBKDF2-HMAC-SHA-256, one block of 32 octets: Python hashlib.pbkdf2_hmac (OpenSSL)")
    for secret, salt, rounds in PBKDF2:
        key = hashlib.pbkdf2_hmac("sha256", secret, salt, rounds, 32)
        assert key == pbkdf2(secret, salt, rounds)
        print(f"\n[secret of {len(secret)}, salt of {len(salt)} octets, rounds {rounds}]")
        print(f"secret {secret.hex()}")
        print(f"salt   {salt.hex()}")
        print(f"key    {key.hex()}")
        print(f"key as a byte string {rust(key)}")


if __name__ == "__main__":
    main()
