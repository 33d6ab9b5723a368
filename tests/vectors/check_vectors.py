"""Prints CMP messages that are protected by PBMAC1, with what a check by a look at the history answers each.

The messages are put together here from X.690, RFC 9810, 5.1 to 5.3, and RFC 4211; MACs come from Python's hashlib and hmac
(RFC 8018, 5.2 and 7.1). The answers are written by hand, from the order of refusals: each message has one fault fewer than the
one before it, so that the first of its faults is told. With `rust FOLDER` the tables of crates/check_cases are written there.
"""

import hashlib
import hmac
import sys
import time

from ask_vectors import HSS, HSS_NULL, PBMAC1, element, octets, oid

SECRET = b"alice's secret"
OUTER = b"gateway's secret"
EVENT = 1_700_000_000


def header(alg, kid, tid, at, pvno, nonce) -> bytes:
    stamp = time.strftime("%Y%m%d%H%M%SZ", time.gmtime(at)).encode()
    return element(
        0x30,
        element(0x02, pvno),
        element(0x82, b"a"),
        element(0x82, b"z"),
        element(0xA0, element(0x18, stamp)),
        b"" if alg is None else element(0xA1, alg),
        octets(0xA2, kid),
        octets(0xA4, tid),
        octets(0xA5, nonce),
    )


def message(body, alg=PBMAC1, kid=b"alice", tid=b"t", at=EVENT, pvno=b"\x02", nonce=bytes(16), secret=SECRET, wrong=False) -> bytes:
    head = header(alg, kid, tid, at, pvno, nonce)
    if alg is None:
        return element(0x30, head, body)
    key = hashlib.pbkdf2_hmac("sha256", secret, bytes(8), 1, 32)
    mac = hmac.new(key, element(0x30, head, body), hashlib.sha256).digest()
    if wrong:
        mac = mac[:-1] + bytes([mac[-1] ^ 1])
    return element(0x30, head, body, element(0xA0, element(0x03, b"\x00", mac)))


def nested(inner, **fields) -> bytes:
    return message(element(0xB4, element(0x30, inner)), **{"kid": b"gateway", "tid": b"n", "secret": OUTER, **fields})


def name(text: bytes) -> bytes:
    return element(0x30, element(0x31, element(0x30, oid("2.5.4.3"), element(0x0C, text))))


DEVICE = name(b"device")
CA = name(b"authority")
NAMELESS = element(0x30)
HSS_KEY = b"\x00\x00\x00\x01" + b"\x00\x00\x00\x05" + b"\x00\x00\x00\x04" + bytes(16) + bytes(range(32))
BITS = element(0x03, b"\x00", HSS_KEY)
KEY = element(0xA6, HSS, BITS)
# Ed25519 (RFC 8410)
OTHER_KEY = element(0xA6, element(0x30, oid("1.3.101.112")), element(0x03, b"\x00key"))
RA_VERIFIED = element(0x80)
SIGNED = element(0xA1, HSS, element(0x03, b"\x00sig"))
SIGNED_OTHER = element(0xA1, element(0x30, oid("1.3.101.112")), element(0x03, b"\x00sig"))
CA_TRUE = element(0xA9, element(0x30, oid("2.5.29.19"), element(0x04, element(0x30, element(0x01, b"\xff")))))
CA_FALSE = element(0xA9, element(0x30, oid("2.5.29.19"), element(0x04, element(0x30))))


def old(issuer: bytes, serial: int) -> bytes:
    value = element(0x30, element(0xA4, issuer), element(0x02, bytes([serial])))
    return element(0x30, element(0x30, oid("1.3.6.1.5.5.7.5.1.5"), value))


def one(template: bytes, controls=b"", popo=RA_VERIFIED, number=b"\x00") -> bytes:
    return element(0x30, element(0x30, element(0x02, number), template, controls), popo)


def template(*fields: bytes) -> bytes:
    return element(0x30, *fields)


def subject(text: bytes) -> bytes:
    return element(0xA5, text)


def issuer(text: bytes) -> bytes:
    return element(0xA3, text)


def ir(*requests: bytes) -> bytes:
    return element(0xA0, element(0x30, *requests))


def kur(request: bytes) -> bytes:
    return element(0xA7, element(0x30, request))


# nothing is asked of a key of another algorithm that is raVerified
PLAIN = template(subject(DEVICE), OTHER_KEY)
HSS_PLAIN = template(subject(DEVICE), KEY)
REQUEST = ir(one(PLAIN))
POLL = element(0xB9, element(0x30, element(0x30, element(0x02, b"\x00"))))
CONFIRM = element(0xB8, element(0x30, element(0x30, element(0x04, bytes(range(32))), element(0x02, b"\xff"))))
PKICONF = element(0xB3, element(0x05))


def rr(*entries: bytes) -> bytes:
    return element(0xAB, element(0x30, *entries))


def entry(issued_by: bytes, serial: int | None, reason: int) -> bytes:
    number = b"" if serial is None else element(0x81, bytes([serial]))
    details = element(0x30, element(0x30, oid("2.5.29.21"), element(0x04, element(0x0A, bytes([reason])))))
    return element(0x30, template(number, issuer(issued_by)), details)


LISTED = "Cred::Rights(1)"
VOUCHES = "Cred::Rights(3)"
HOLDER = "Cred::Holder(9)"
NEW = "DealState::Unused"
HELD = "DealState::Held"
OTHER = "DealState::Other"

BAD = one(template(), popo=SIGNED_OTHER)
TWO = ir(BAD, BAD)
# what is wrong, the credential of the message, how the transaction stands, the answer, the message
SENDERS = [
    ("another body, without protection", "Cred::Nobody", HELD, "Told::Bare(FailInfo::BadRequest)", message(PKICONF, alg=None, at=EVENT + 301)),
    ("no protection", "Cred::Nobody", HELD, "Told::Bare(FailInfo::BadMessageCheck)", message(TWO, alg=None, at=EVENT + 301)),
    ("HSS/LMS with NULL", "Cred::Nobody", HELD, "Told::Bare(FailInfo::BadAlg)", message(TWO, alg=HSS_NULL, at=EVENT + 301)),
    ("of nobody", "Cred::Nobody", HELD, "Told::Bare(FailInfo::SignerNotTrusted)", message(TWO, at=EVENT + 301, wrong=True)),
    ("of a credential of the other kind", "Cred::OtherKind", HELD, "Told::Bare(FailInfo::WrongIntegrity)", message(TWO, at=EVENT + 301, wrong=True)),
    ("of one who is dismissed", "Cred::Barred", HELD, "Told::Bare(FailInfo::NotAuthorized)", message(TWO, at=EVENT + 301, wrong=True)),
    ("a wrong MAC", "Cred::Rights(0)", HELD, "Told::Bare(FailInfo::BadMessageCheck)", message(TWO, at=EVENT + 301, wrong=True)),
    ("301 seconds late", "Cred::Rights(0)", HELD, "Told::Guarded(FailInfo::BadTime)", message(TWO, at=EVENT + 301)),
    ("301 seconds early", "Cred::Rights(0)", HELD, "Told::Guarded(FailInfo::BadTime)", message(TWO, at=EVENT - 301)),
    ("300 seconds late", "Cred::Rights(0)", HELD, "Told::Guarded(FailInfo::TransactionIdInUse)", message(TWO, at=EVENT + 300)),
    ("300 seconds early", "Cred::Rights(0)", HELD, "Told::Guarded(FailInfo::TransactionIdInUse)", message(TWO, at=EVENT - 300)),
]
REQUESTS = [
    ("a used transaction", "Cred::Rights(0)", OTHER, "Told::Guarded(FailInfo::TransactionIdInUse)", message(TWO)),
    ("two requests", "Cred::Rights(0)", NEW, "Told::Guarded(FailInfo::BadRequest)", message(TWO)),
    ("certReqId 1", "Cred::Rights(0)", NEW, "Told::Guarded(FailInfo::BadRequest)", message(ir(one(template(), popo=SIGNED_OTHER, number=b"\x01")))),
    ("without the right to enrol", "Cred::Rights(30)", NEW, "Told::Guarded(FailInfo::NotAuthorized)", message(ir(BAD))),
    ("no subject", LISTED, NEW, "Told::Guarded(FailInfo::BadCertTemplate)", message(ir(BAD))),
    ("an empty subject", LISTED, NEW, "Told::Guarded(FailInfo::BadCertTemplate)", message(ir(one(template(subject(NAMELESS), OTHER_KEY))))),
    ("no key", LISTED, NEW, "Told::Guarded(FailInfo::BadCertTemplate)", message(ir(one(template(subject(DEVICE)))))),
    ("a serial number", LISTED, NEW, "Told::Guarded(FailInfo::BadCertTemplate)", message(ir(one(template(element(0x81, b"\x05"), subject(DEVICE), OTHER_KEY))))),
    ("version 1", LISTED, NEW, "Told::Guarded(FailInfo::BadCertTemplate)", message(ir(one(template(element(0x80, b"\x00"), subject(DEVICE), OTHER_KEY))))),
    ("version 3", LISTED, NEW, "Told::Fits", message(ir(one(template(element(0x80, b"\x02"), subject(DEVICE), OTHER_KEY))))),
    ("another issuer", LISTED, NEW, "Told::Guarded(FailInfo::BadCertTemplate)", message(ir(one(template(issuer(DEVICE), subject(DEVICE), OTHER_KEY))))),
    ("the authority as the issuer", LISTED, NEW, "Told::Fits", message(ir(one(template(issuer(CA), subject(DEVICE), OTHER_KEY))))),
    ("cA TRUE", LISTED, NEW, "Told::Guarded(FailInfo::BadCertTemplate)", message(ir(one(template(subject(DEVICE), OTHER_KEY, CA_TRUE))))),
    ("basicConstraints without cA", LISTED, NEW, "Told::Fits", message(ir(one(template(subject(DEVICE), OTHER_KEY, CA_FALSE))))),
    ("a proof by another algorithm", LISTED, NEW, "Told::Guarded(FailInfo::BadAlg)", message(ir(one(HSS_PLAIN, popo=SIGNED_OTHER)))),
    ("a proof by HSS/LMS", LISTED, NEW, "Told::Fits", message(ir(one(HSS_PLAIN, popo=SIGNED)))),
    ("a key of another algorithm", LISTED, NEW, "Told::Guarded(FailInfo::BadAlg)", message(ir(one(template(subject(DEVICE), OTHER_KEY), popo=SIGNED)))),
    ("such a key that is raVerified", VOUCHES, NEW, "Told::Fits", message(ir(one(template(subject(DEVICE), OTHER_KEY))))),
]
OTHERS = [
    ("an update by a secret", LISTED, NEW, "Told::Guarded(FailInfo::NotAuthorized)", message(kur(one(template(), old(CA, 8))))),
    ("an update without a subject", HOLDER, NEW, "Told::Guarded(FailInfo::BadCertTemplate)", message(kur(one(template(), old(CA, 8))))),
    ("an update of another certificate", HOLDER, NEW, "Told::Guarded(FailInfo::BadCertId)", message(kur(one(PLAIN, old(CA, 8))))),
    ("an update of another issuer's", HOLDER, NEW, "Told::Guarded(FailInfo::BadCertId)", message(kur(one(PLAIN, old(DEVICE, 9))))),
    ("an update", HOLDER, NEW, "Told::Fits", message(kur(one(PLAIN, old(CA, 9))))),
    ("a poll in a new transaction", LISTED, NEW, "Told::Guarded(FailInfo::BadRequest)", message(POLL)),
    ("a poll where one was revoked", LISTED, OTHER, "Told::Guarded(FailInfo::BadRequest)", message(POLL)),
    ("a poll", LISTED, HELD, "Told::Fits", message(POLL)),
    ("a certConf in a new transaction", LISTED, NEW, "Told::Guarded(FailInfo::BadRequest)", message(CONFIRM)),
    ("a certConf", LISTED, HELD, "Told::Fits", message(CONFIRM)),
    ("a revocation in a used transaction", LISTED, OTHER, "Told::Guarded(FailInfo::TransactionIdInUse)", message(rr(entry(DEVICE, 5, 7)))),
    ("two revocations", LISTED, NEW, "Told::Guarded(FailInfo::BadRequest)", message(rr(entry(DEVICE, 5, 1), entry(CA, 6, 1)))),
    ("a revocation for reason 7", LISTED, NEW, "Told::Guarded(FailInfo::BadRequest)", message(rr(entry(DEVICE, 5, 7)))),
    ("a revocation under another issuer", LISTED, NEW, "Told::Guarded(FailInfo::BadCertId)", message(rr(entry(DEVICE, 5, 1)))),
    ("a revocation of nothing", LISTED, NEW, "Told::Guarded(FailInfo::BadCertId)", message(rr(entry(CA, None, 1)))),
    ("a revocation", LISTED, NEW, "Told::Fits", message(rr(entry(CA, 5, 1)))),
]
INNER = message(POLL)
HOLLOW = element(0x30)
TWICE = HOLLOW + HOLLOW
# what is wrong, the credential of the nested message, that of the one inside, how the transaction stands, the answer, the message
NESTED = [
    ("no protection", "Cred::Nobody", LISTED, HELD, "Told::BareOuter(FailInfo::BadMessageCheck)", nested(TWICE, alg=None, at=EVENT + 301)),
    ("HSS/LMS with NULL", "Cred::Nobody", LISTED, HELD, "Told::BareOuter(FailInfo::BadAlg)", nested(TWICE, alg=HSS_NULL, at=EVENT + 301)),
    ("of nobody", "Cred::Nobody", LISTED, HELD, "Told::BareOuter(FailInfo::SignerNotTrusted)", nested(TWICE, at=EVENT + 301, wrong=True)),
    ("of a credential of the other kind", "Cred::OtherKind", LISTED, HELD, "Told::BareOuter(FailInfo::WrongIntegrity)", nested(TWICE, at=EVENT + 301, wrong=True)),
    ("of one who is dismissed", "Cred::Barred", LISTED, HELD, "Told::BareOuter(FailInfo::NotAuthorized)", nested(TWICE, at=EVENT + 301, wrong=True)),
    ("a wrong MAC", "Cred::Rights(27)", LISTED, HELD, "Told::BareOuter(FailInfo::BadMessageCheck)", nested(TWICE, at=EVENT + 301, wrong=True)),
    ("a MAC under the other secret", "Cred::Rights(27)", LISTED, HELD, "Told::BareOuter(FailInfo::BadMessageCheck)", nested(TWICE, at=EVENT + 301, secret=SECRET)),
    ("301 seconds late", "Cred::Rights(27)", LISTED, HELD, "Told::GuardedOuter(FailInfo::BadTime)", nested(TWICE, at=EVENT + 301)),
    ("300 seconds late, without the right to wrap", "Cred::Rights(27)", LISTED, HELD, "Told::GuardedOuter(FailInfo::NotAuthorized)", nested(TWICE, at=EVENT + 300)),
    ("two messages inside", "Cred::Rights(4)", LISTED, HELD, "Told::GuardedOuter(FailInfo::BadRequest)", nested(TWICE)),
    ("no message inside", "Cred::Rights(4)", LISTED, HELD, "Told::GuardedOuter(FailInfo::BadDataFormat)", nested(HOLLOW)),
    ("one message inside", "Cred::Rights(4)", LISTED, HELD, "Told::Fits", nested(INNER)),
]
INSIDE = [
    ("version 1 inside", "Cred::Rights(4)", "Cred::Nobody", HELD, "Told::Bare(FailInfo::UnsupportedVersion)", nested(message(PKICONF, pvno=b"\x01", tid=None, nonce=None))),
    ("no transactionID inside", "Cred::Rights(4)", "Cred::Nobody", HELD, "Told::Bare(FailInfo::BadDataFormat)", nested(message(PKICONF, tid=None, nonce=None))),
    ("no senderNonce inside", "Cred::Rights(4)", "Cred::Nobody", HELD, "Told::Bare(FailInfo::BadSenderNonce)", nested(message(PKICONF, nonce=None))),
    ("a nested message inside", "Cred::Rights(4)", "Cred::Nobody", HELD, "Told::Bare(FailInfo::BadRequest)", nested(nested(INNER))),
    ("nobody inside", "Cred::Rights(4)", "Cred::Nobody", NEW, "Told::Bare(FailInfo::SignerNotTrusted)", nested(message(POLL, at=EVENT + 301, secret=OUTER))),
    ("a MAC under the outer secret inside", "Cred::Rights(4)", LISTED, NEW, "Told::Bare(FailInfo::BadMessageCheck)", nested(message(POLL, at=EVENT + 301, secret=OUTER))),
    ("301 seconds late inside", "Cred::Rights(4)", LISTED, NEW, "Told::Guarded(FailInfo::BadTime)", nested(message(POLL, at=EVENT + 301))),
    ("a poll in a new transaction inside", "Cred::Rights(4)", LISTED, NEW, "Told::Guarded(FailInfo::BadRequest)", nested(message(POLL, at=EVENT + 300))),
    ("without the right to enrol inside", "Cred::Rights(4)", "Cred::Rights(30)", NEW, "Told::Guarded(FailInfo::NotAuthorized)", nested(message(REQUEST, at=EVENT + 300))),
    ("a request inside", "Cred::Rights(4)", LISTED, NEW, "Told::Fits", nested(message(REQUEST, at=EVENT + 300))),
]
TABLES = {"SENDERS": SENDERS, "REQUESTS": REQUESTS, "OTHERS": OTHERS, "NESTED": NESTED, "INSIDE": INSIDE}


def literal(text: bytes) -> str:
    return 'b"' + "".join(f"\\x{octet:02x}" for octet in text) + '"'


def row(fields) -> str:
    what, *words, text = fields
    outer = "Cred::Nobody" if len(words) == 3 else words.pop(0)
    cred, state, told = words
    return f'    Row {{ what: "{what}", cred: {cred}, outer: {outer}, state: {state}, told: {told}, octets: {literal(text)} }},\n'


def write(folder: str, table: str) -> None:
    path = f"{folder}/{table.lower()}.rt"
    with open(path) as file:
        head, rest = file.read().split(f"const {table}: &[Row] = &[\n")
    with open(path, "w") as file:
        file.write(head + f"const {table}: &[Row] = &[\n" + "".join(map(row, TABLES[table])) + rest[rest.index("];\n") :])


if __name__ == "__main__":
    if sys.argv[1:2] == ["rust"]:
        for table in TABLES:
            write(sys.argv[2], table)
    else:
        for table, rows in TABLES.items():
            for what, *words, text in rows:
                print(f"{table}: {what}: {', '.join(words)}: {text.hex()}")
        print("subject:", DEVICE.hex())
        print("certConf:", message(CONFIRM).hex())
        print("request:", message(ir(one(HSS_PLAIN))).hex())
        print("nested:", nested(message(POLL, at=EVENT + 1)).hex())
