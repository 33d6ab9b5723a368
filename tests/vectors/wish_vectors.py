#!/usr/bin/env python3
"""Rows of extensions that requests ask for, in hex: what is wrong with each, and whether one of them isn't copied.

DER is written by X.690 and RFC 5280, 4.1 and 4.2.1; the answers are written by hand.
"""


def der(tag, *parts):
    content = b"".join(parts)
    assert len(content) < 128
    return bytes([tag, len(content)]) + content


def extension(oid, value, critical=False):
    flag = der(0x01, b"\xff") if critical else b""
    return der(0x30, der(0x06, oid), flag, der(0x04, value))


USAGE = bytes([0x55, 0x1D, 0x0F])
ALT_NAME = bytes([0x55, 0x1D, 0x11])
CONSTRAINTS = bytes([0x55, 0x1D, 0x13])
EXTENDED = bytes([0x55, 0x1D, 0x25])
SIGNS = extension(USAGE, der(0x03, b"\x07\x80"), True)
ADDRESS = extension(ALT_NAME, der(0x30, der(0x87, b"\x01\x02\x03\x04")))
LEAF = extension(CONSTRAINTS, der(0x30))

ROWS = [
    ("keyUsage, subjectAltName and empty basicConstraints", "good", "copied", ADDRESS + LEAF + SIGNS),
    ("a pathLenConstraint alone", "good", "copied", extension(CONSTRAINTS, der(0x30, der(0x02, b"\x00")))),
    ("extKeyUsage", "good", "dropped", extension(EXTENDED, der(0x30, der(0x06, b"\x2b\x06\x01\x05\x05\x07\x03\x02")))),
    ("a keyUsage that is an INTEGER", "bad", "copied", extension(USAGE, der(0x02, b"\x05"))),
    ("a keyUsage whose unused bits are set", "bad", "copied", extension(USAGE, der(0x03, b"\x07\xff"))),
    ("a subjectAltName without names", "bad", "copied", extension(ALT_NAME, der(0x30))),
    ("a subjectAltName of the tag [9]", "bad", "copied", extension(ALT_NAME, der(0x30, der(0x89, b"x")))),
    ("basicConstraints with cA TRUE", "bad", "copied", extension(CONSTRAINTS, der(0x30, der(0x01, b"\xff")))),
    ("basicConstraints with cA FALSE, which DER leaves out", "bad", "copied", extension(CONSTRAINTS, der(0x30, der(0x01, b"\x00")))),
    ("one extension twice", "bad", "dropped", extension(EXTENDED, b"") + ADDRESS + extension(EXTENDED, b"")),
]

if __name__ == "__main__":
    for what, form, kept, octets in ROWS:
        print(f"{what}: {form}, {kept}: {octets.hex()}")
