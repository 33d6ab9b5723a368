"""Prints what serving answers to the streams of three devices, octet for octet, and the journals it serves over.

The authority is that of tests/interop/authority.py, over hashlib and hmac alone; its keys have w = 1, which grow fast. The devices'
keys, salts and nonces are octets that count up, so that each run prints the same. Journals are laid out as in log_vectors.py, and
HTTP as in RFC 9110 and RFC 9811, 3. What is written over a link is printed as its SHA-256. With the words `rust FILE` the constants of
crates/serve_cases are written to that file.
"""

import hashlib
import os
import sys

HERE = os.path.dirname(os.path.abspath(__file__))
sys.path.insert(0, os.path.join(HERE, "..", "interop"))
from authority import Authority, Wish, granted, settled  # noqa: E402
from change_vectors import FLEET_CA, MAC, NOW, blob, credential, run, u8, u32, u64  # noqa: E402
from cmp_messages import IR, Key, Secret, confirmation, confirmations, enrolment, message, pbmac1  # noqa: E402
from history_vectors import DEV_2, ENROL, HOLD, enlist, key, stamp, wish  # noqa: E402
from log_vectors import FRONT, record  # noqa: E402

# seeds 10, 11, .. and 30, 31, ..; identifiers 80, 81, .. and a0, a1, ..
KEY_FILE = run(0x10, 32) + run(0x80, 16) + run(0x30, 32) + run(0xA0, 16)
ROUNDS, WAIT, CHECK_AFTER, DAYS = 1000, 300, 60, 365
CA = Authority(KEY_FILE, NOW, 1, ROUNDS, WAIT, CHECK_AFTER, DAYS)


class Device(Secret):
    """A device with a shared secret, whose salts count up from a first octet."""

    def __init__(self, reference, secret, first):
        super().__init__(reference, secret, ROUNDS)
        self.salt = run(first, 16)

    def begin(self):
        return pbmac1(self.salt, self.rounds), lambda text: self.mac(self.salt, self.rounds, text)


def post(body: bytes) -> bytes:
    head = f"POST /.well-known/cmp HTTP/1.1\r\nContent-Type: application/pkixcmp\r\nContent-Length: {len(body)}\r\n\r\n"
    return head.encode() + body


def replied(body: bytes) -> bytes:
    head = f"HTTP/1.1 200 OK\r\nContent-Type: application/pkixcmp\r\nContent-Length: {len(body)}\r\n\r\n"
    return head.encode() + body


REJECTED = b"HTTP/1.1 400 Bad Request\r\nContent-Length: 0\r\nConnection: close\r\n\r\n"


def asking(device: Device, first: int, tid: bytes):
    """An ir for a key of height 5 and w = 8, whose seed and identifier count up, with a nonce that does; and what is wished."""
    own = Key("device-1", ots=4, seed=run(first, 32), identifier=run(first + 32, 16))
    return message(device, enrolment(IR, own), at=NOW, tid=tid, nonce=run(first + 48, 16)), Wish(own.name, own.info)


def answer(sent, owed, serial: int, at: int, first: int) -> bytes:
    """The reply to a message whose words, drawn for it, count up from this octet."""
    words = run(first, 32)
    return CA.reply(sent, owed.body(CA, at, serial), owed.info(CA, at), at, words[:16], words[16:], owed.guarded, None)


def granting(sent, wished, serial: int, first: int) -> bytes:
    return answer(sent, granted(0xA1, wished), serial, NOW, first)


def found(keys: Authority) -> bytes:
    numbers = u32(WAIT) + u32(300) + u32(ROUNDS) + u32(CHECK_AFTER) + u32(DAYS)
    return u8(1) + u64(NOW) + blob(FLEET_CA) + keys.issue.octets + keys.replies.octets + numbers


# dev-1 asks twice, in two transactions and for two keys; dev-2 is held
ONE, TWO = Device("dev-1", b"secret-1", 0x20), Device("dev-1", b"secret-1", 0x30)
FIRST, FIRST_WISH = asking(ONE, 0x40, run(0x00, 16))
SECOND, SECOND_WISH = asking(TWO, 0x60, run(0x10, 16))
HELD = b"C"
LISTED = FRONT + record(found(CA)) + record(enlist(
    NOW, credential(MAC, b"dev-1", b"secret-1", ENROL), credential(MAC, b"dev-2", b"secret-2", ENROL | HOLD)))
HOLDING = LISTED + record(u8(5) + stamp(4, HELD, DEV_2, NOW) + u8(0) + wish(key(0x42)))

# the first device alone: an ir, and two seconds later a certConf of the reply
ALONE = granting(FIRST, FIRST_WISH, 3, 0xB0)
CONFIRM = message(
    ONE, confirmations(confirmation(CA.granted(3, NOW, FIRST_WISH))), at=NOW + 2, tid=FIRST.tid, nonce=run(0x90, 16),
    received=run(0xB0, 16))
CONFIRMED = answer(CONFIRM, settled(True), 0, NOW + 2, 0xD0)
# both at once, where the second one decides first
EARLIER, LATER = granting(SECOND, SECOND_WISH, 3, 0xD0), granting(FIRST, FIRST_WISH, 4, 0xB0)


def sha(octets: bytes) -> str:
    return hashlib.sha256(octets).hexdigest()


OTHER_KEY_FILE = KEY_FILE[:80] + run(0xA1, 16)
OTHER = Authority(OTHER_KEY_FILE, NOW, 1, ROUNDS, WAIT, CHECK_AFTER, DAYS)


def identity(keys: Authority) -> str:
    """The identifier and the root of each tree."""
    return (keys.issue.octets[12:] + keys.replies.octets[12:]).hex()


# the name of a constant, what it is, and its value
VALUES = [
    ("KEY_FILE", "The key file of the authority, whose keys have w = 1.", KEY_FILE.hex()),
    ("OTHER_KEY_FILE", "The key file with another identifier of the key of replies.", OTHER_KEY_FILE.hex()),
    ("MISMATCH", "Both identities.", f"key mismatch\nfile {identity(OTHER)}\njournal {identity(CA)}\n"),
    ("LISTED", "A journal: the founding, and dev-1 and dev-2 listed, of whom dev-2 is held.", (LISTED + u8(0)).hex()),
    ("HOLDING", "The same, and a request of dev-2 in the transaction 43.", (HOLDING + u8(0)).hex()),
    ("FIRST", "An ir of dev-1 in the transaction 00 to 0f, posted.", post(FIRST.octets).hex()),
    ("SECOND", "An ir of dev-1 in the transaction 10 to 1f for another key, posted.", post(SECOND.octets).hex()),
    ("CONFIRM", "The certConf of the reply to the first ir, posted.", post(CONFIRM.octets).hex()),
    ("BROKEN", "A request whose body breaks off.", post(FIRST.octets)[:200].hex()),
    ("SECOND_GRANTED", "What is written for the second ir, where it gets the serial number 3: its SHA-256.", sha(replied(EARLIER))),
    ("FIRST_GRANTED", "What is written for the first ir then, with the serial number 4: its SHA-256.", sha(replied(LATER))),
    ("ENROLLED", "What is written for the first ir alone and its certConf: its SHA-256.", sha(replied(ALONE) + replied(CONFIRMED))),
    ("REJECTED", "What is written for a request that breaks off: its SHA-256.", sha(REJECTED)),
]


def constants():
    """The constants of crates/serve_cases."""
    yield "//! Made by tests/vectors/serve_vectors.py with Python's `hashlib`, `hmac` and `struct`.\n"
    for name, what, value in VALUES:
        value = value.replace("\n", "\\n")
        yield f'/// {what}\npub const {name}: &str =\n    "{value}";\n'


def main() -> None:
    if len(sys.argv) > 2:
        with open(sys.argv[2], "w", encoding="utf-8") as file:
            file.write("\n".join(constants()))
        return
    print("# made by Python's hashlib, hmac and struct")
    for name, what, value in VALUES:
        print(f"\n# {what}\n{name} {value}")


if __name__ == "__main__":
    main()
