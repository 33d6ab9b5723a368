"""A message for each rule of what is refused and what is done, each beside a neighbour that passes the rule.

What must come is written by hand, from the order of the rules: most messages have one fault fewer than the one before them, so that
the first of their faults is told.
"""

import time
from typing import NamedTuple

from authority import (
    CP, DAY, IP, KUP, Answer, Wish, bare, denied, granted, key_identifier, polled, refused, revoked, settled, stored, waiting)
from cmp_messages import (
    AUTHORITY, CR, GENM, HSS_LMS, IR, KUR, NESTED, NULL, PKICONF, Reply, Sent, asked, bits, common_name, confirmation, confirmations,
    der, directory_name, enrolment, extension, first, integer, issued, message, nested, octet_string, oid, pbmac1, pkcs10, polls, proof,
    public, reason, requests, revocation, revocations, sequence, subject, u32)
from course import SKEW, WAIT
from home import ED25519, IMPLICIT, RA_VERIFIED, other_key

HSS_NULL = sequence(oid("1.2.840.113549.1.9.16.3.17"), NULL)
SHA512 = sequence(oid("2.16.840.1.101.3.4.2.3"))
SHA256 = oid("2.16.840.1.101.3.4.2.1")
HMAC_SHA512 = sequence(oid("1.2.840.113549.2.11"), NULL)
HMAC_BARE = sequence(oid("1.2.840.113549.2.9"))
LIMIT = 131_072
SALT = bytes(range(16))
KEY_USAGE, NAMES, BASIC = "2.5.29.15", "2.5.29.17", "2.5.29.19"
SIGNS = extension(KEY_USAGE, bytes.fromhex("03020640"))
NAMED = extension(NAMES, sequence(der(0x82, b"device.example")), critical=True)
CLIENT = extension("2.5.29.37", sequence(oid("1.3.6.1.5.5.7.3.2")))


class Row(NamedTuple):
    """What a message is, the message, and what must come, over a history whose times are moved by so many seconds."""

    what: str
    sent: Sent
    answer: Answer
    moved: int = 0
    nests: bool = True


BAD = asked(number=1), der(0xA1, ED25519, bits(b"signature"))
TWO = requests(IR, BAD, BAD)
BAD_REVOCATION = revocations()
BAD_CONFIRMATIONS = confirmations(confirmation(b"", algorithm=SHA512))
NOBODY = directory_name(sequence())


def unreadable(what, by, octets, nests=True):
    """A row for octets that are no message: nothing of them is repeated."""
    return Row(what, Sent(octets, by, 3, NOBODY, None, None), bare("badDataFormat"), nests=nests)


def old(serial, issuer=directory_name(AUTHORITY)):
    """The control that names the certificate which is renewed (RFC 4211, 6.5)."""
    return sequence(oid("1.3.6.1.5.5.7.5.1.5"), sequence(issuer, integer(serial)))


def extension_request(*extensions):
    """The attribute of PKCS #10 that asks for extensions (RFC 2985, 5.4.2)."""
    return sequence(oid("1.2.840.113549.1.9.14"), der(0x31, sequence(*extensions)))


def of_length(home, length):
    """An ir of so many octets, for a long name, and what it wishes for."""
    spare = length - len(message(home.device, enrolment(IR, home.new, name=common_name("x" * 70_000))).octets)
    name = common_name("x" * (70_000 + spare))
    return message(home.device, enrolment(IR, home.new, name=name)), Wish(name, home.new.info)


def with_extra(whole, entry):
    """The message with this entry in its extraCerts, which no protection covers (RFC 9810, 5.1)."""
    return sequence(first(whole)[1], der(0xA1, sequence(entry)))


def forms(home):
    """Octets that are no message, and neighbours that are one."""
    whole = message(home.device, enrolment(IR, home.new)).octets
    twice = extension_request(CLIENT) + extension_request(NAMED)
    longest, wish = of_length(home, LIMIT)
    name = common_name("whole")
    named = message(home.device, enrolment(IR, home.new, name=name))
    return [
        unreadable("no octets", home.device, b"", nests=False),
        unreadable("an octet cut off", home.device, whole[:-1], nests=False),
        unreadable("an octet behind it", home.device, whole + b"\0", nests=False),
        unreadable("one octet too many", home.device, of_length(home, LIMIT + 1)[0].octets, nests=False),
        Row("as many octets as may be", longest, granted(IP, wish), nests=False),
        unreadable("a body outside the table", home.device, message(home.device, der(0xBB, NULL)).octets),
        unreadable("a nested body without a message", home.device, message(home.device, der(NESTED, sequence())).octets),
        unreadable("PKCS #10 that asks for extensions twice", home.device, message(home.device, pkcs10(home.new, attributes=twice)).octets),
        unreadable("extraCerts without a certificate", home.device, sequence(first(whole)[1], der(0xA1, sequence()))),
        unreadable("an extraCerts entry whose content is no element", home.device, with_extra(whole, bytes.fromhex("300100"))),
        unreadable("an extraCerts entry that is no SEQUENCE", home.device, with_extra(whole, NULL)),
        Row("an extraCerts entry of whole elements", named._replace(octets=with_extra(named.octets, sequence(NULL))), granted(IP, Wish(name, home.new.info))),
    ]


def headers(home, name, body):
    """Messages of the header's and the protection's faults: each lacks one fault of the row before it. `body` is at fault too."""
    now = int(time.time())

    def flat(text):
        return bytes(32)

    def right(text):
        return home.device.mac(SALT, 1, text)

    def others(text):
        return home.waiter.mac(SALT, 1, text)

    mended = [
        ("version 1", bare("unsupportedVersion"), {"pvno": 1}),
        ("version 4", bare("unsupportedVersion"), {"pvno": 4}),
        ("version 258", bare("unsupportedVersion"), {"pvno": 258}),
        ("no transactionID", bare("badDataFormat"), {"pvno": 2}),
        ("a transactionID of 0 octets", bare("badDataFormat"), {"tid": b""}),
        ("a transactionID of 65 octets", bare("badDataFormat"), {"tid": bytes(65)}),
        ("no senderNonce", bare("badSenderNonce"), {"tid": bytes(64)}),
        ("a senderNonce of 15 octets", bare("badSenderNonce"), {"nonce": bytes(15)}),
        ("a senderNonce of 65 octets", bare("badSenderNonce"), {"nonce": bytes(65)}),
        ("neither protection nor algorithm", bare("badMessageCheck"), {"nonce": bytes(64)}),
        ("no algorithm", bare("badMessageCheck"), {"sign": flat}),
        ("no protection", bare("badMessageCheck"), {"algorithm": HSS_NULL, "sign": None}),
        ("HSS/LMS with NULL", bare("badAlg"), {"sign": flat}),
        ("another algorithm", bare("badAlg"), {"algorithm": ED25519}),
        ("a salt of 7 octets", bare("badAlg"), {"algorithm": pbmac1(bytes(7), 1)}),
        ("a salt of 65 octets", bare("badAlg"), {"algorithm": pbmac1(bytes(65), 1)}),
        ("0 iterations", bare("badAlg"), {"algorithm": pbmac1(bytes(8), 0)}),
        ("200,001 iterations", bare("badAlg"), {"algorithm": pbmac1(bytes(8), 200_001)}),
        ("a key of 31 octets", bare("badAlg"), {"algorithm": pbmac1(bytes(8), 1, integer(31))}),
        ("no prf", bare("badAlg"), {"algorithm": pbmac1(bytes(8), 1, prf=b"")}),
        ("another prf", bare("badAlg"), {"algorithm": pbmac1(bytes(8), 1, prf=HMAC_SHA512)}),
        ("another MAC", bare("badAlg"), {"algorithm": pbmac1(bytes(8), 1, mac=HMAC_SHA512)}),
        ("no senderKID, at the greatest parameters", bare("signerNotTrusted"), {"algorithm": pbmac1(bytes(64), 200_000, integer(32))}),
        ("no senderKID, at the least", bare("signerNotTrusted"), {"algorithm": pbmac1(bytes(8), 1)}),
        ("no senderKID, at HSS/LMS", bare("signerNotTrusted"), {"algorithm": HSS_LMS}),
        ("nobody's senderKID", bare("signerNotTrusted"), {"kid": bytes(65)}),
        ("the key of a certificate that can't sign here", bare("signerNotTrusted"), {"kid": key_identifier(home.other)}),
        ("a reference, at HSS/LMS", bare("wrongIntegrity"), {"kid": home.leaver.kid}),
        ("a listed key, at PBMAC1", bare("wrongIntegrity"), {"algorithm": pbmac1(SALT, 1), "kid": home.signer.kid}),
        ("the key of a certificate, at PBMAC1", bare("wrongIntegrity"), {"kid": home.keys["B"].kid}),
        ("a dismissed reference", bare("notAuthorized"), {"kid": home.leaver.kid}),
        ("the key of an open certificate", bare("notAuthorized"), {"algorithm": HSS_LMS, "kid": home.keys["B"].kid}),
        ("the key of a rejected certificate", bare("notAuthorized"), {"kid": home.keys["G"].kid}),
        ("the key of a revoked certificate", bare("notAuthorized"), {"kid": home.keys["H"].kid}),
        ("a wrong signature by a certificate", bare("badMessageCheck"), {"kid": home.keys["A"].kid}),
        ("a wrong signature by a listed key", bare("badMessageCheck"), {"kid": home.signer.kid}),
        ("a wrong MAC", bare("badMessageCheck"), {"algorithm": pbmac1(SALT, 1), "kid": home.device.kid}),
        ("a MAC under another's secret", bare("badMessageCheck"), {"sign": others}),
        ("too late", refused("badTime"), {"sign": right}),
        ("too early", refused("badTime"), {"at": now + 2 * SKEW}),
    ]
    fields = {"pvno": 1, "at": now - 2 * SKEW, "algorithm": None, "kid": None, "tid": None, "nonce": None, "sign": None}
    rows = []
    for what, answer, changes in mended:
        fields |= changes
        rows.append(Row(f"{name}: {what}", message(home.device, body, **fields), answer))
    return rows


def openings(home):
    """Messages that open a transaction which is used already, and whose content is at fault."""
    now, used = int(time.time()), refused("transactionIdInUse")
    bad_pkcs10 = pkcs10(home.new, name=sequence(), algorithm=ED25519, sign=lambda text: b"")

    def say(body, tid, **changes):
        return message(home.device, body, tid=tid, **changes)

    return [
        Row("a body that isn't served: pkiconf", message(home.device, der(PKICONF, NULL), algorithm=None, sign=None), bare("badRequest")),
        Row("a body that isn't served: genm", message(home.device, der(GENM, sequence()), algorithm=None, sign=None), bare("badRequest")),
        Row("an ir in a used one, nearly late", say(TWO, b"A", at=now - SKEW + 600), used),
        Row("an ir in a used one, nearly early", say(TWO, b"A", at=now + SKEW - 600), used),
        Row("an ir in a used one, without a time", say(TWO, b"A", at=None), used),
        Row("an ir in a used one, of version 3", say(TWO, b"A", pvno=3), used),
        Row("an ir in a held one", say(TWO, b"C"), used),
        Row("an ir in that of an rr", say(TWO, b"R"), used),
        Row("a cr in a used one", say(requests(CR, BAD, BAD), b"A"), used),
        Row("a kur in a used one", say(requests(KUR, BAD, BAD), b"A"), used),
        Row("a p10cr in a used one", say(bad_pkcs10, b"A"), used),
        Row("an rr in a used one", say(BAD_REVOCATION, b"A"), used),
        Row("an rr of a key in a used one", message(home.signer, BAD_REVOCATION, tid=b"A"), used),
        Row("an ir that comes after a change in the future", say(TWO, b"A"), refused("badTime"), moved=2 * SKEW),
        Row("a kur under a certificate that ended", message(home.keys["A"], requests(KUR, BAD)), bare("notAuthorized"), moved=-DAY * 366),
        Row("one that didn't", message(home.keys["A"], requests(KUR, BAD)), refused("badRequest"), moved=-DAY * 364),
    ]


def transactions(home):
    """Messages that go on with a transaction, which stands otherwise."""
    conf, poll, before = BAD_CONFIRMATIONS, polls(1, 1), Reply(home.first).fields[0xA5]

    def say(body, tid, by=home.device, received=b"another nonce..."):
        return message(by, body, tid=tid.encode(), received=received)

    def right(body, tid, by=home.device):
        return say(body, tid, by, home.nonce(tid))

    return [
        Row("a certConf in a new transaction", say(conf, "Z"), refused("badRequest")),
        Row("a pollReq in a new transaction", say(poll, "Z"), refused("badRequest")),
        Row("a certConf in that of an rr", say(conf, "R"), refused("badRequest")),
        Row("a certConf in another's", say(conf, "A", home.waiter), refused("notAuthorized")),
        Row("a pollReq in another's", say(poll, "C"), refused("notAuthorized")),
        Row("a certConf by the certificate itself", say(conf, "A", home.keys["A"]), refused("notAuthorized")),
        Row("a certConf without recipNonce", say(conf, "A", received=None), refused("badRecipientNonce")),
        Row("a certConf with another recipNonce", say(conf, "A"), refused("badRecipientNonce")),
        Row("a certConf in answer to the reply before", say(conf, "A", received=before), refused("badRecipientNonce")),
        Row("a pollReq with another recipNonce", say(poll, "C", home.waiter), refused("badRecipientNonce")),
        Row("a certConf for a confirmed certificate", right(conf, "A"), refused("certConfirmed")),
        Row("a certConf for a rejected one", right(conf, "G"), refused("certRevoked")),
        Row("a certConf for a revoked one", right(conf, "H"), refused("certRevoked")),
        Row("a certConf after the deadline", right(conf, "B"), refused("certRevoked"), moved=-WAIT),
        Row("a certConf before it", right(conf, "B"), refused("badAlg"), moved=-WAIT // 2),
        Row("a certConf for a held request", right(conf, "C", home.waiter), refused("badRequest")),
        Row("a certConf for a released one", right(conf, "D", home.waiter), refused("badRequest")),
        Row("a pollReq for a confirmed certificate", right(polls(0), "A"), refused("badRequest")),
        Row("a pollReq for an open one", right(polls(0), "B"), refused("badRequest")),
        Row("a pollReq for a request that was told to be denied", right(polls(0), "F", home.waiter), refused("badRequest")),
    ]


def confirming(home):
    """What a certConf and a pollReq say."""
    course = home.course
    certificate, by_pkcs10 = course.certificate(b"B"), course.certificate(b"I")

    def say(*statuses, tid="B", by=home.device):
        return message(by, confirmations(*statuses), tid=tid.encode(), received=home.nonce(tid))

    def poll(tid, *numbers, by=home.waiter, **changes):
        return message(by, polls(*numbers), tid=tid.encode(), received=home.nonce(tid), **changes)

    wrong = confirmation(b"", algorithm=SHA512)
    right = confirmation(certificate)
    odd = sequence(SHA256, octet_string(b""))
    return [
        Row("certConf: two statuses", say(wrong, wrong), refused("badRequest")),
        Row("certConf: certReqId 1", say(confirmation(b"", 1, algorithm=SHA512)), refused("badRequest")),
        Row("certConf: certReqId -1 of an ir", say(confirmation(b"", -1, algorithm=SHA512)), refused("badRequest")),
        Row("certConf: status 3", say(confirmation(b"", status=3, algorithm=SHA512)), refused("badRequest")),
        Row("certConf: SHA-512", say(wrong), refused("badAlg")),
        Row("certConf: SHA-256 with odd parameters", say(confirmation(b"", algorithm=odd)), refused("badAlg")),
        Row("certConf: another certHash", say(confirmation(b"", algorithm=sequence(SHA256))), refused("badCertId")),
        Row("certConf: another certHash, rejecting", say(confirmation(b"", status=2)), refused("badCertId")),
        Row("certConf: SHA-256", say(confirmation(certificate, algorithm=sequence(SHA256))), settled(True)),
        Row("certConf: SHA-256 with NULL", say(confirmation(certificate, algorithm=sequence(SHA256, NULL))), settled(True)),
        Row("certConf: no statusInfo", say(right), settled(True)),
        Row("certConf: status 1", say(confirmation(certificate, status=1)), settled(True)),
        Row("certConf: status 2", say(confirmation(certificate, status=2)), settled(False)),
        Row("certConf: an empty list", say(), settled(False)),
        Row("certConf: certReqId 1 of a p10cr", say(confirmation(b"", 1), tid="I"), refused("badRequest")),
        Row("certConf: certReqId 0 of a p10cr", say(confirmation(by_pkcs10), tid="I"), settled(True)),
        Row("certConf: certReqId -1 of a p10cr", say(confirmation(by_pkcs10, -1), tid="I"), settled(True)),
        Row("certConf: of a key", say(confirmation(course.certificate(b"L")), tid="L", by=home.signer), settled(True)),
        Row("pollReq: no entry", poll("C"), refused("badRequest")),
        Row("pollReq: two entries", poll("C", 0, 0), refused("badRequest")),
        Row("pollReq: certReqId 1", poll("C", 1), refused("badRequest")),
        Row("pollReq: certReqId -1 of a cr", poll("D", -1), refused("badRequest")),
        Row("pollReq: held", poll("C", -1), polled(-1)),
        Row("pollReq: held, certReqId 0 of a p10cr", poll("C", 0), polled(-1)),
        Row("pollReq: held, of a key", poll("P", 0, by=home.poller), polled(0)),
        Row("pollReq: released", poll("D", 0), granted(CP, home.wish("D"))),
        Row("pollReq: released, which asks for implicitConfirm", poll("D", 0, info=sequence(IMPLICIT)), granted(CP, home.wish("D"))),
        Row("pollReq: released, of a key", poll("Q", 0, by=home.poller), granted(CP, home.wish("Q"))),
        Row("pollReq: denied", poll("E", 0), denied(CP, -1)),
    ]


def revoking(home):
    """What an rr says."""
    other = common_name("Other CA")

    def say(*entries, by=home.waiter):
        return message(by, revocations(*entries))

    def odd(*details):
        return say(revocation(*issued(3, other), details=details))

    def named(serial, by, *details):
        return say(revocation(*issued(serial), details=details or None), by=by)

    listed = [
        Row("rr: no entry", say(), refused("badRequest")),
        Row("rr: two entries", say(revocation(), revocation()), refused("badRequest")),
        Row("rr: two reasons", odd(reason(1), reason(1)), refused("badRequest")),
        Row("rr: a reason that is an INTEGER", odd(extension("2.5.29.21", integer(1))), refused("badRequest")),
        Row("rr: no issuer", say(revocation(issued(3)[0])), refused("badCertId")),
        Row("rr: no serial number", say(revocation(issued(3)[1])), refused("badCertId")),
        Row("rr: another issuer", odd(reason(1)), refused("badCertId")),
        Row("rr: a serial number that nothing has", named(99, home.waiter), refused("badCertId")),
        Row("rr: the authority's certificate", named(1, home.waiter), refused("badCertId")),
        Row("rr: the reply certificate", named(2, home.waiter), refused("badCertId")),
        Row("rr: of another's open certificate", named(4, home.waiter), refused("notAuthorized")),
        Row("rr: of another's, by a certificate", named(9, home.keys["A"]), refused("notAuthorized")),
        Row("rr: of an open certificate", named(4, home.device), refused("badRequest")),
        Row("rr: of an open one, after the deadline", named(4, home.device), refused("badRequest"), moved=-WAIT),
        Row("rr: of a rejected one", named(5, home.device), refused("certRevoked")),
        Row("rr: of a revoked one", named(6, home.revoker), refused("certRevoked")),
        Row("rr: of one's own", named(3, home.device), revoked(3, 0)),
        Row("rr: by the certificate itself", named(3, home.keys["A"], reason(4)), revoked(3, 4)),
        Row("rr: by one who may revoke", named(9, home.revoker, reason(9)), revoked(9, 9)),
        Row("rr: with another detail", named(3, home.device, extension("2.5.29.24", b"any"), reason(5)), revoked(3, 5)),
    ]
    for code in (7, 8, 11):
        listed.append(Row(f"rr: reason {code}", odd(reason(code)), refused("badRequest")))
    for code in (0, 6, 10):
        listed.append(Row(f"rr: reason {code}, in range", named(3, home.device, reason(code)), revoked(3, code)))
    return listed


def templates(home):
    """What is asked for, in a template or in PKCS #10, under a key for which badAlg comes next."""
    name, key = subject(home.new.name), public(other_key(b"odd"))

    def odd(*fields):
        return message(home.device, requests(IR, (asked(*fields), BAD[1])))

    def extended(*extensions):
        return odd(name, key, der(0xA9, *extensions))

    def odd_pkcs10(*extensions, **changes):
        attributes = extension_request(*extensions) if extensions else b""
        return message(home.device, pkcs10(home.new, attributes=attributes, algorithm=ED25519, sign=lambda text: b"", **changes))

    wrong = [
        ("no subject", odd(key)),
        ("an empty subject", odd(subject(sequence()), key)),
        ("no key", odd(name)),
        ("version 1", odd(der(0x80, b"\1"), name, key)),
        ("a serial number", odd(der(0x81, b"\5"), name, key)),
        ("a signing algorithm", odd(der(0xA2, first(HSS_LMS)[1]), name, key)),
        ("another issuer", odd(der(0xA3, common_name("Other CA")), name, key)),
        ("an issuerUID", odd(name, key, der(0x87, b"\0\1"))),
        ("a subjectUID", odd(name, key, der(0x88, b"\0\1"))),
        ("one extension twice", extended(CLIENT, CLIENT)),
        ("a keyUsage out of form", extended(extension(KEY_USAGE, NULL))),
        ("a subjectAltName out of form", extended(extension(NAMES, sequence()))),
        ("a basicConstraints out of form", extended(extension(BASIC, sequence(der(0x01, b"\0"))))),
        ("cA TRUE", extended(extension(BASIC, sequence(der(0x01, b"\xff"))))),
        ("PKCS #10, version 1", odd_pkcs10(version=1)),
        ("PKCS #10, an empty subject", odd_pkcs10(name=sequence())),
        ("PKCS #10, one extension twice", odd_pkcs10(CLIENT, CLIENT)),
        ("PKCS #10, cA TRUE", odd_pkcs10(extension(BASIC, sequence(der(0x01, b"\xff"))))),
    ]
    in_form = [
        ("version 3", odd(der(0x80, b"\2"), name, key)),
        ("the authority as the issuer", odd(der(0xA3, AUTHORITY), name, key)),
        ("a validity", odd(der(0xA4, NULL), name, key)),
        ("extensions in form", extended(SIGNS, NAMED, extension(BASIC, sequence()), CLIENT)),
        ("PKCS #10", odd_pkcs10(SIGNS, NAMED)),
    ]
    return [*(Row(f"template: {what}", sent, refused("badCertTemplate")) for what, sent in wrong),
            *(Row(f"template: {what}", sent, refused("badAlg")) for what, sent in in_form)]


def keys(home):
    """Whose keys are asked for and how they are proved."""
    name, wrong = subject(home.new.name), der(0xA1, HSS_LMS, bits(b"signature"))
    odd, repeated = public(other_key(b"odd")), public(home.keys["A"].info)

    def say(key, proved, *more, by=home.device, tag=IR, **changes):
        return message(by, requests(tag, (asked(name, key, **changes), proved)))

    def hss(octets, algorithm=HSS_LMS):
        return public(sequence(algorithm, bits(octets)))

    def renew(*controls):
        return say(repeated, wrong, by=home.keys["A"], tag=KUR, controls=sequence(*controls) if controls else b"")

    def duplicate(info, proved=wrong, by=home.device):
        return say(public(info), proved, by=by)

    octets, course = home.new.octets, home.course
    bad_alg = [
        ("another algorithm, signed", say(odd, wrong)),
        ("another algorithm, without a proof", say(odd, b"")),
        ("another algorithm, another proof", say(odd, der(0xA2, NULL))),
        ("HSS/LMS with NULL", say(hss(octets, HSS_NULL), RA_VERIFIED)),
        ("0 levels", say(hss(u32(0) + octets[4:]), RA_VERIFIED)),
        ("9 levels", say(hss(u32(9) + octets[4:]), RA_VERIFIED)),
        ("a tree code of 10", say(hss(octets[:4] + u32(10) + octets[8:]), RA_VERIFIED)),
        ("an OTS code of 5", say(hss(octets[:8] + u32(5) + octets[12:]), RA_VERIFIED)),
        ("59 octets", say(hss(octets[:-1]), RA_VERIFIED)),
        ("61 octets", say(hss(octets + b"\0"), RA_VERIFIED)),
        ("a proof by another algorithm", say(repeated, BAD[1])),
        ("PKCS #10, another algorithm", message(home.device, pkcs10(home.new, info=other_key(b"odd")))),
        ("PKCS #10, a proof by another algorithm", message(home.device, pkcs10(home.new, algorithm=ED25519))),
    ]
    bad_id = [
        ("of another serial number", renew(old(4))),
        ("of another serial number, before the right one", renew(old(4), old(3))),
        ("of another issuer", renew(old(3, directory_name(common_name("Other CA"))))),
        ("of a dNSName", renew(old(3, der(0x82, b"Fleet CA")))),
    ]
    duplicates = [
        ("renewed without oldCertID", renew()),
        ("renewed with its oldCertID", renew(old(3))),
        ("renewed with its oldCertID, before another one", renew(old(3), old(4))),
        ("that is listed", duplicate(home.signer.info)),
        ("that is revoked", duplicate(home.keys["G"].info)),
        ("that is held", duplicate(home.keys["C"].info)),
        ("of another algorithm", duplicate(home.other, RA_VERIFIED)),
        ("of the authority", duplicate(course.authority.issue.info)),
        ("of its replies", duplicate(course.authority.replies.info)),
        ("in PKCS #10", message(home.device, pkcs10(home.keys["A"], sign=lambda text: b""))),
    ]
    request = asked(name, public(home.new.info))
    signature = bits(home.new.sign(request))
    elsewhere = proof(home.new, asked(name, public(home.new.info), number=1))
    unproved = [
        ("no proof", say(public(home.new.info), b"")),
        ("a wrong signature", say(public(home.new.info), wrong)),
        ("the signature of another request", say(public(home.new.info), elsewhere)),
        ("a signature over poposkInput", message(home.device, requests(IR, (request, der(0xA1, der(0xA0, NULL), HSS_LMS, signature))))),
        ("raVerified", say(public(home.new.info), RA_VERIFIED)),
        ("raVerified by a certificate", say(public(home.new.info), RA_VERIFIED, by=home.keys["A"])),
        ("another algorithm, raVerified", say(odd, RA_VERIFIED)),
        ("keyEncipherment", say(public(home.new.info), der(0xA2, NULL))),
        ("keyAgreement", say(public(home.new.info), der(0xA3, NULL))),
        ("8 levels, of the greatest codes", say(hss(u32(8) + u32(9) + u32(1) + octets[12:]), wrong)),
        ("PKCS #10", message(home.device, pkcs10(home.new, sign=lambda text: b"signature"))),
    ]
    return [*(Row(f"key: {what}", sent, refused("badAlg")) for what, sent in bad_alg),
            *(Row(f"oldCertID {what}", sent, refused("badCertId")) for what, sent in bad_id),
            *(Row(f"a key {what}", sent, refused("duplicateCertReq")) for what, sent in duplicates),
            *(Row(f"proof: {what}", sent, refused("badPOP")) for what, sent in unproved)]


def requested(home):
    """How many requests there are, and who may ask."""
    bad = requests(IR, BAD)
    zero = asked(), BAD[1]
    return [
        Row("no request", message(home.gateway, requests(IR)), refused("badRequest")),
        Row("two requests", message(home.gateway, TWO), refused("badRequest")),
        Row("certReqId 1", message(home.gateway, bad), refused("badRequest")),
        Row("certReqId -1", message(home.gateway, requests(IR, (asked(number=-1), BAD[1]))), refused("badRequest")),
        Row("an ir without the right", message(home.gateway, requests(IR, zero)), refused("notAuthorized")),
        Row("a p10cr without the right", message(home.gateway, pkcs10(home.new, name=sequence())), refused("notAuthorized")),
        Row("a kur of a device", message(home.device, requests(KUR, zero)), refused("notAuthorized")),
        Row("a kur of a listed key", message(home.signer, requests(KUR, zero)), refused("notAuthorized")),
        Row("an ir with the right", message(home.device, requests(IR, zero)), refused("badCertTemplate")),
        Row("a kur of a certificate", message(home.keys["A"], requests(KUR, zero)), refused("badCertTemplate")),
    ]


def granting(home):
    """Requests that are granted or held."""
    new, later = home.new, int(time.time()) + 2 * SKEW
    wish = Wish(new.name, new.info)
    copied = Wish(new.name, new.info, SIGNS + NAMED)
    attributes = extension_request(CLIENT, NAMED, SIGNS)
    vouched = requests(IR, (asked(subject(new.name), public(new.info)), RA_VERIFIED))
    other = requests(CR, (asked(subject(new.name), public(other_key(b"odd"))), RA_VERIFIED))
    request = asked(subject(new.name), public(new.info))
    with_null = requests(IR, (request, der(0xA1, HSS_NULL, bits(new.sign(request)))))
    without_null = {"algorithm": pbmac1(SALT, 1, prf=HMAC_BARE, mac=HMAC_BARE), "sign": lambda text: home.device.mac(SALT, 1, text)}
    not_implicit = sequence(sequence(oid("1.3.6.1.5.5.7.4.13"), octet_string(b"")))

    def extended(*extensions):
        return der(0xA9, *extensions)

    def full(*more, before=b""):
        request = asked(before, subject(new.name), public(new.info), *more)
        return requests(CR, (request, proof(new, request)))

    def say(body, by=home.device, **changes):
        return message(by, body, **changes)

    return [
        Row("an ir", say(enrolment(IR, new)), granted(IP, wish)),
        Row("an ir of version 3, without a time", say(enrolment(IR, new), pvno=3, at=None), granted(IP, wish)),
        Row("an ir, implicitly", say(enrolment(IR, new), info=sequence(IMPLICIT)), granted(IP, wish, implicit=True)),
        Row("an ir, with implicitConfirm out of form", say(enrolment(IR, new), info=not_implicit), granted(IP, wish)),
        Row("an ir with an oldCertID", say(enrolment(IR, new, controls=sequence(old(3)))), granted(IP, wish)),
        Row("an ir whose proof has parameters", say(with_null), granted(IP, wish)),
        Row("an ir after a change in the future", say(enrolment(IR, new), at=later), granted(IP, wish), moved=2 * SKEW),
        Row("an ir with regInfo", say(requests(IR, (request, proof(new, request), sequence(NULL)))), granted(IP, wish)),
        Row("an ir whose MAC's algorithms have no NULL", say(enrolment(IR, new), **without_null), granted(IP, wish)),
        Row("a cr", say(enrolment(CR, new)), granted(CP, wish)),
        Row("a cr with names and usage", say(full(extended(NAMED, SIGNS))), granted(CP, copied)),
        Row("a cr with basicConstraints", say(full(extended(extension(BASIC, sequence()), SIGNS, NAMED))), granted(CP, copied)),
        Row("a cr with another extension", say(full(extended(CLIENT, SIGNS, NAMED))), granted(CP, copied, mods=True)),
        Row("a cr with a validity", say(full(before=der(0xA4, NULL))), granted(CP, wish, mods=True)),
        Row("a p10cr", say(pkcs10(new)), granted(CP, wish, number=-1)),
        Row("a p10cr with extensions", say(pkcs10(new, attributes=attributes)), granted(CP, copied, number=-1, mods=True)),
        Row("a kur", say(enrolment(KUR, new, controls=sequence(old(3))), home.keys["A"]), granted(KUP, wish)),
        Row("a cr of a certificate", say(enrolment(CR, new), home.keys["A"]), granted(CP, wish)),
        Row("a cr of a listed key", say(enrolment(CR, new), home.signer), granted(CP, wish)),
        Row("an ir that is vouched for", say(vouched, home.voucher), granted(IP, wish)),
        Row("a cr over another key, vouched for", say(other, home.voucher), granted(CP, Wish(new.name, other_key(b"odd")))),
        Row("an ir that is held", say(enrolment(IR, new), home.waiter), waiting(IP)),
        Row("a p10cr that is held", say(pkcs10(new), home.waiter), waiting(CP, -1)),
        Row("a cr of a listed key that is held", say(enrolment(CR, new), home.poller), waiting(CP)),
    ]


def repeated(home):
    """Messages that were answered before, octet for octet."""
    replies = home.course.replies
    again = [("request A", home.first), ("certConf A", replies[b"A"]), ("rr H", replies[b"R"]), ("request H", replies[b"H"]),
             ("request L", replies[b"L"]), ("request X", replies[b"X"]), ("request C", replies[b"C"]), ("pollReq F", replies[b"F"])]
    return [Row(f"again: {what}", home.sent[what], stored(reply)) for what, reply in again]


def wrapping(home):
    """Nested messages: who may wrap, how many, and to whom a refusal goes."""
    inner = message(home.device, enrolment(IR, home.new))
    wish = granted(IP, Wish(home.new.name, home.new.info))
    vouched = requests(IR, (asked(subject(home.new.name), public(home.new.info)), RA_VERIFIED))

    def around(by, *inside, **changes):
        return nested(by, [sent.octets for sent in inside], **changes)

    def inside(by, sent, **changes):
        return sent._replace(octets=around(by, sent, **changes).octets)

    junk = Sent(sequence(NULL), home.device, 3, b"", None, None)
    by_device, by_both = message(home.device, vouched), message(home.almighty, vouched)
    twice = around(home.gateway, inner)
    rows = [
        Row("a device wraps two", around(home.device, inner, inner), refused("notAuthorized")),
        Row("one who may vouch wraps", around(home.voucher, inner), refused("notAuthorized")),
        Row("a key that may enrol wraps", around(home.signer, inner), refused("notAuthorized")),
        Row("a certificate wraps", around(home.keys["A"], inner), refused("notAuthorized")),
        Row("two inside", around(home.gateway, inner, inner), refused("badRequest")),
        Row("two inside, by a key", around(home.sealer, inner, inner), refused("badRequest")),
        Row("no message inside", around(home.gateway, junk), refused("badDataFormat")),
        Row("no message inside, by a key", around(home.sealer, junk), refused("badDataFormat")),
        Row("nested twice", inside(home.gateway, twice), bare("badRequest")),
        Row("a request inside, by a key", inside(home.sealer, inner), wish),
        Row("a request inside, in a used transaction", inside(home.gateway, inner, tid=b"A"), wish),
        Row("a request inside, late", around(home.gateway, inner, at=int(time.time()) - 2 * SKEW), refused("badTime")),
        Row("raVerified inside, by a device", inside(home.almighty, by_device), refused("badPOP")),
        Row("raVerified inside, by one who may vouch", inside(home.gateway, by_both), wish),
        Row("wrapped by oneself", inside(home.almighty, by_both), wish),
    ]
    return [row._replace(nests=False) for row in [*headers(home, "nested", der(NESTED, sequence(inner.octets, inner.octets))), *rows]]


def wrapped(home, row):
    """The same message inside another: what isn't readable is refused to the outer one."""
    outer = nested(home.gateway, [row.sent.octets], at=int(time.time()) + max(row.moved, 0))
    unread = row.sent.sender == NOBODY
    sent, answer = (outer, refused("badDataFormat")) if unread else (row.sent._replace(octets=outer.octets), row.answer)
    return row._replace(what=f"{row.what}, nested", sent=sent, answer=answer)


def all_rows(home):
    plain = [*forms(home), *headers(home, "header", TWO), *openings(home), *transactions(home), *requested(home), *templates(home),
             *keys(home), *granting(home), *confirming(home), *revoking(home), *repeated(home)]
    return [*plain, *(wrapped(home, row) for row in plain if row.nests), *wrapping(home)]
