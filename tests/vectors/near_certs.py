"""Prints a small certificate by hand from RFC 5280, 4.1, one that is near a limit, and neighbours that are none, in hex."""


def element(tag, content):
    size = len(content)
    if size < 128:
        length = bytes([size])
    elif size < 256:
        length = bytes([0x81, size])
    else:
        length = bytes([0x82]) + size.to_bytes(2, "big")
    return bytes([tag]) + length + content


ED25519 = element(0x30, element(0x06, bytes.fromhex("2b6570")))
NAME = bytes.fromhex("30133111300f06035504030c08466c656574204341")
VERSION = element(0xA0, element(0x02, b"\x02"))
BEFORE = element(0x17, b"231114221320Z")
AFTER = element(0x17, b"241113221319Z")
KEY = element(0x30, ED25519 + element(0x03, b"\x00\x01\x02"))


def key_usage(flag):
    usage = element(0x06, bytes.fromhex("551d0f")) + element(0x01, flag) + element(0x04, bytes.fromhex("03020780"))
    return element(0xA3, element(0x30, element(0x30, usage)))


def certificate(version=VERSION, serial=b"\x07", after=AFTER, key=KEY, identifier=b"", extensions=key_usage(b"\xff"),
                signature=b"\x00\x09\x09", over=b""):
    validity = element(0x30, BEFORE + after)
    tbs = element(0x30, version + element(0x02, serial) + ED25519 + NAME + validity + NAME + key + identifier + extensions)
    return element(0x30, tbs + ED25519 + element(0x03, signature) + over)


SMALL = certificate()
NEIGHBOURS = [
    ("cut by one octet", SMALL[:-1]),
    ("one octet more", SMALL + b"\x00"),
    ("an element more behind the signature", certificate(over=element(0x05, b""))),
    ("a length in one octet more than needed", bytes([0x30, 0x82, 0x00]) + SMALL[2:]),
    ("version 1, which is not written", certificate(version=b"")),
    ("version 2", certificate(version=element(0xA0, element(0x02, b"\x01")))),
    ("a unique identifier of the subject", certificate(identifier=element(0x82, b"\x00\x01"))),
    ("GeneralizedTime before 2050", certificate(after=element(0x18, b"20241113221319Z"))),
    ("a last second 60", certificate(after=element(0x17, b"241113221360Z"))),
    ("three times", certificate(after=AFTER * 2)),
    ("no extensions", certificate(extensions=b"")),
    ("FALSE written", certificate(extensions=key_usage(b"\x00"))),
    ("a serial number with a zero octet in front", certificate(serial=b"\x00\x07")),
    ("unused bits in the key", certificate(key=element(0x30, ED25519 + element(0x03, b"\x01\x02")))),
]

if __name__ == "__main__":
    print("small", SMALL.hex())
    late = certificate(after=element(0x18, b"20500101000000Z"), signature=b"\x03\x09\x08")
    print("late, and a signature with unused bits", late.hex())
    for what, octets in NEIGHBOURS:
        print(what + ":", octets.hex())
