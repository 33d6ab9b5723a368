"""What an authority must answer, octet for octet, by Python's hashlib and hmac: its keys grown from the key file, its certificates
by RFC 5280, its replies by RFC 9810, each a function of the message, the history, the time of the event and the words drawn.
"""

import hashlib
import time
from typing import Callable, NamedTuple

from cmp_messages import (
    AUTHORITY, HSS_LMS, NULL, PKICONF, Key, Secret, bits, common_name, der, directory_name, extension, first,
    generalized_time, integer, octet_string, oid, optional, optional_octets, pbmac1, sequence, status_info)

FAILURES = {
    "badAlg": 0, "badMessageCheck": 1, "badRequest": 2, "badTime": 3, "badCertId": 4, "badDataFormat": 5, "badPOP": 9, "certRevoked": 10,
    "certConfirmed": 11, "wrongIntegrity": 12, "badRecipientNonce": 13, "badSenderNonce": 18, "badCertTemplate": 19,
    "signerNotTrusted": 20, "transactionIdInUse": 21, "unsupportedVersion": 22, "notAuthorized": 23, "systemUnavail": 24,
    "duplicateCertReq": 26}
IP, CP, KUP, RP, ERROR, POLLREP = (0xA0 + tag for tag in (1, 3, 8, 12, 23, 26))
GRANT, HOLD, TURNED, POLLED, SETTLED, REVOKE = 4, 5, 8, 9, 10, 11
DAY = 86_400
DIGITAL_SIGNATURE = extension("2.5.29.15", bytes.fromhex("03020780"), critical=True)


def certificate_time(at):
    """UTCTime through 2049 (RFC 5280, 4.1.2.5)."""
    return der(0x17, time.strftime("%y%m%d%H%M%SZ", time.gmtime(at)).encode())


def key_identifier(info):
    """The first 20 octets of SHA-256 of a key's bits."""
    key = first(first(first(info)[1])[3])[1][1:]
    return hashlib.sha256(key).digest()[:20]


class Wish(NamedTuple):
    """What a certificate is asked for: whose, over which key, with which extensions beside the identifiers."""

    name: bytes
    info: bytes
    extensions: bytes = DIGITAL_SIGNATURE


class Authority:
    """An authority with the keys of a key file, founded at a time, whose certificates hold for so many days."""

    def __init__(self, key_file, founded, ots, rounds, wait, check_after, days):
        self.issue = Key("Fleet CA", ots=ots, seed=key_file[:32], identifier=key_file[32:48])
        self.replies = Key("Fleet CA reply", ots=ots, seed=key_file[48:80], identifier=key_file[80:])
        self.founded, self.rounds, self.wait, self.check_after, self.days = founded, rounds, wait, check_after, days
        constraints = extension("2.5.29.19", sequence(der(0x01, b"\xff")), critical=True)
        may_sign = extension("2.5.29.15", bytes.fromhex("03020204"), critical=True)
        usual = extension("2.5.29.35", sequence(der(0x80, self.issue.kid)))
        self.usual = usual
        self.root = self.own(1, self.issue, self.names(self.issue) + constraints + may_sign)
        self.reply_certificate = self.own(2, self.replies, usual + self.names(self.replies) + DIGITAL_SIGNATURE)

    def names(self, key):
        """The extension that names a key."""
        return extension("2.5.29.14", octet_string(key.kid))

    def own(self, serial, key, extensions):
        ends = der(0x18, b"99991231235959Z")
        return self.certificate(serial, key.name, sequence(certificate_time(self.founded), ends), key.info, extensions)

    def certificate(self, serial, name, validity, info, extensions):
        """A certificate; the one with the serial number n is signed with leaf n - 1."""
        text = sequence(der(0xA0, integer(2)), integer(serial), HSS_LMS, AUTHORITY, validity, name, info, der(0xA3, sequence(extensions)))
        return sequence(text, HSS_LMS, bits(self.issue.sign_with(serial - 1, text)))

    def granted(self, serial, at, wish):
        validity = sequence(certificate_time(at), certificate_time(at + DAY * self.days - 1))
        names = self.usual + extension("2.5.29.14", octet_string(key_identifier(wish.info)))
        return self.certificate(serial, wish.name, validity, wish.info, names + wish.extensions)

    def reply(self, sent, body, info, at, nonce, salt, guarded, leaf):
        """A reply to a message: unprotected; under its sender's secret; or, with a leaf, signed."""
        signs, macs = leaf is not None, guarded and isinstance(sent.by, Secret)
        name = common_name("Fleet CA reply") if signs else AUTHORITY
        algorithm = HSS_LMS if signs else pbmac1(salt, self.rounds) if macs else None
        kid = self.replies.kid if signs else sent.by.kid if macs else None
        tid = sent.tid if sent.tid and len(sent.tid) <= 64 else None
        received = sent.nonce if sent.nonce and 16 <= len(sent.nonce) <= 64 else None
        header = sequence(
            integer(sent.pvno if sent.pvno in (2, 3) else 3), directory_name(name), sent.sender, der(0xA0, generalized_time(at)),
            optional(0xA1, algorithm), optional_octets(0xA2, kid), optional_octets(0xA4, tid), optional_octets(0xA5, nonce),
            optional_octets(0xA6, received), optional(0xA8, info))
        text = sequence(header, body)
        if signs:
            return sequence(header, body, der(0xA0, bits(self.replies.sign_with(leaf, text))), der(0xA1, sequence(self.reply_certificate)))
        return sequence(header, body, der(0xA0, bits(sent.by.mac(salt, self.rounds, text))) if macs else b"")


class Answer(NamedTuple):
    """What must come: the status of the run, the kind of the change in the journal and its last octets, whether a secret protects the
    reply, its body and generalInfo by the authority, the time and the next serial number; or a reply that is stored.
    """

    status: int
    change: int | None
    guarded: bool
    body: Callable
    info: Callable = lambda authority, at: None
    tail: bytes = b""
    stored: bytes | None = None

    @property
    def is_grant(self):
        return self.change == GRANT


def refused(failure, guarded=True):
    body = der(ERROR, sequence(status_info(2, failure, FAILURES[failure])))
    return Answer(1, None, guarded, lambda authority, at, serial: body)


def bare(failure):
    """A refusal of a message whose sender isn't known for certain."""
    return refused(failure, guarded=False)


def response(tag, number, status, certificate=None, root=None):
    pair = b"" if certificate is None else sequence(der(0xA0, certificate))
    roots = b"" if root is None else der(0xA1, sequence(root))
    return der(tag, sequence(roots, sequence(sequence(integer(number), status, pair))))


def granted(tag, wish, number=0, mods=False, implicit=False):
    """A certificate, to be confirmed within the authority's time, or implicitly."""

    def body(authority, at, serial):
        root = authority.root if tag == IP else None
        return response(tag, number, status_info(1 if mods else 0), authority.granted(serial, at, wish), root)

    def info(authority, at):
        told = (oid("1.3.6.1.5.5.7.4.13"), NULL) if implicit else (oid("1.3.6.1.5.5.7.4.14"), generalized_time(at + authority.wait))
        return sequence(sequence(*told))

    return Answer(0, GRANT, True, body, info)


def stored(reply):
    """The reply that was given before."""
    return Answer(0, None, True, lambda authority, at, serial: b"", stored=reply)


def done(change, body, tail=b""):
    return Answer(0, change, True, lambda authority, at, serial: body, tail=tail)


def waiting(tag, number=0):
    return done(HOLD, response(tag, number, status_info(3)))


def denied(tag, number=0):
    return done(TURNED, response(tag, number, status_info(2, "denied", FAILURES["notAuthorized"])))


def polled(number=0):
    def body(authority, at, serial):
        return der(POLLREP, sequence(sequence(integer(number), integer(authority.check_after))))

    return Answer(0, POLLED, True, body)


def settled(accepted):
    return done(SETTLED, der(PKICONF, NULL), bytes([1 if accepted else 2]))


def revoked(serial, reason):
    return done(REVOKE, der(RP, sequence(sequence(status_info(0)))), serial.to_bytes(8, "big") + bytes([reason]))
