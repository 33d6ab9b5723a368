"""Prints the journal of an enrolled device, octet by octet, and what is told of it and of disks that hold no history.

A journal is an octet 1, the magic CMPLOG1, and for each change an octet 1, its length in four octets and its octets; an octet 0
stands behind the last one. The lines and the offsets are written by hand from their rules.
"""

from change_vectors import blob, u8
from history_vectors import enrolment

FRONT = u8(1) + b"CMPLOG1"


def records():
    """Each change behind its gate; a blob is four octets of length and its octets."""
    return [u8(1) + blob(octets) for _, octets in enrolment()]


def log() -> bytes:
    return FRONT + b"".join(records())


LINES = """\
changes 4
issue 3 of 32
reply 0 of 32
cert 3 confirmed 000102030405060708090a0b0c0d0e0f"""

if __name__ == "__main__":
    print("# made by Python's struct")
    print(f"\n[the journal of an enrolment]\njournal {(log() + u8(0)).hex()}")
    print("\n".join(f"# {line}" for line in LINES.splitlines()))
    print(f"\n[its log with 01ffffffff behind it]\n# damaged at {len(log())}")
    print(f"\n[its log with no gate behind it]\n# damaged at {len(log()) - len(records()[-1])}")
    print("\n[its first eight octets, and the journal with 00 at its front]\n# not founded")
