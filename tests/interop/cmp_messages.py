"""CMP messages in Python's hashlib, hmac and os alone.

DER is written by X.690, messages by RFC 9810, requests by RFC 4211 and RFC 2986, MACs by RFC 8018, signatures by RFC 8554.
"""

import hashlib
import hmac
import os
import sys
import time
from typing import NamedTuple

sys.path.insert(0, os.path.join(os.path.dirname(os.path.abspath(__file__)), "..", "vectors"))
from check_lms import hss_ok, public_key, sign_tree, u32  # noqa: E402


def der(tag, *parts):
    content = b"".join(parts)
    size = len(content)
    if size < 128:
        return bytes([tag, size]) + content
    octets = size.to_bytes((size.bit_length() + 7) // 8, "big")
    return bytes([tag, 128 + len(octets)]) + octets + content


def sequence(*parts):
    return der(0x30, *parts)


def integer(value):
    return der(0x02, value.to_bytes(value.bit_length() // 8 + 1, "big", signed=True))


def octet_string(content):
    return der(0x04, content)


def bits(content):
    return der(0x03, b"\0", content)


def oid(text):
    first, second, *arcs = map(int, text.split("."))
    content = bytes([40 * first + second])
    for arc in arcs:
        septets = [arc & 127]
        while arc := arc >> 7:
            septets.append(128 | (arc & 127))
        content += bytes(reversed(septets))
    return der(0x06, content)


def generalized_time(at):
    return der(0x18, time.strftime("%Y%m%d%H%M%SZ", time.gmtime(at)).encode())


def common_name(text):
    return sequence(der(0x31, sequence(oid("2.5.4.3"), der(0x0C, text.encode()))))


NULL = der(0x05)
HSS_LMS = sequence(oid("1.2.840.113549.1.9.16.3.17"))
HMAC_SHA256 = sequence(oid("1.2.840.113549.2.9"), NULL)
AUTHORITY = common_name("Fleet CA")
IR, CR, P10CR, KUR, RR, PKICONF, NESTED, GENM, CERTCONF, POLLREQ = (0xA0 + tag for tag in (0, 2, 4, 7, 11, 19, 20, 21, 24, 25))


def first(octets):
    """The first element's tag, content and whole octets, and what follows it."""
    start, size = 2, octets[1]
    if size > 127:
        start = 2 + size - 128
        size = int.from_bytes(octets[2:start], "big")
    return octets[0], octets[start : start + size], octets[: start + size], octets[start + size :]


def items(content):
    found = []
    while content:
        tag, inside, whole, content = first(content)
        found.append((tag, inside, whole))
    return found


def pbmac1(salt, rounds, *length, prf=HMAC_SHA256, mac=HMAC_SHA256):
    derivation = sequence(oid("1.2.840.113549.1.5.12"), sequence(octet_string(salt), integer(rounds), *length, prf))
    return sequence(oid("1.2.840.113549.1.5.14"), sequence(derivation, mac))


class Secret:
    """A shared secret with its reference, under which messages are protected by PBMAC1."""

    def __init__(self, reference, secret, rounds):
        self.kid, self.secret, self.rounds = reference.encode(), secret, rounds
        self.name = common_name(reference)

    def mac(self, salt, rounds, text):
        return hmac.new(hashlib.pbkdf2_hmac("sha256", self.secret, salt, rounds), text, "sha256").digest()

    def begin(self):
        """An algorithm with a new salt, and what protects a text by it."""
        salt = os.urandom(16)
        return pbmac1(salt, self.rounds), lambda text: self.mac(salt, self.rounds, text)


class Key:
    """An HSS/LMS key of one level, whose leaves are used one after the other."""

    def __init__(self, name, tree=5, ots=2, seed=None, identifier=None, used=0):
        self.parts = tree, ots, seed or os.urandom(32), identifier or os.urandom(16)
        self.name, self.used = common_name(name), used
        self.octets = u32(1) + public_key(*self.parts)
        self.kid = hashlib.sha256(self.octets).digest()[:20]
        self.info = sequence(HSS_LMS, bits(self.octets))

    def sign_with(self, leaf, text):
        return u32(0) + sign_tree(*self.parts, leaf, text)

    def sign(self, text):
        self.used += 1
        return self.sign_with(self.used - 1, text)

    def begin(self):
        return HSS_LMS, self.sign


def directory_name(name):
    return der(0xA4, name)


class Sent(NamedTuple):
    """A message, who sent it, and the fields of its header that a reply repeats."""

    octets: bytes
    by: Secret | Key
    pvno: int
    sender: bytes
    tid: bytes | None
    nonce: bytes | None


def optional(tag, element):
    return b"" if element is None else der(tag, element)


def optional_octets(tag, content):
    return b"" if content is None else der(tag, octet_string(content))


def message(by, body, **changes):
    """A message of this sender. `changes` are the fields that aren't as usual; None leaves one out, `sign` is what protects it."""
    algorithm, sign = by.begin()
    usual = {"pvno": 2, "sender": directory_name(by.name), "at": int(time.time()), "algorithm": algorithm, "kid": by.kid,
             "tid": os.urandom(16), "nonce": os.urandom(16), "received": None, "info": None, "sign": sign}
    fields = usual | changes
    at = fields["at"]
    header = sequence(
        integer(fields["pvno"]), fields["sender"], directory_name(AUTHORITY), optional(0xA0, None if at is None else generalized_time(at)),
        optional(0xA1, fields["algorithm"]), optional_octets(0xA2, fields["kid"]), optional_octets(0xA4, fields["tid"]),
        optional_octets(0xA5, fields["nonce"]), optional_octets(0xA6, fields["received"]), optional(0xA8, fields["info"]))
    sign = fields["sign"]
    protection = b"" if sign is None else der(0xA0, bits(sign(sequence(header, body))))
    return Sent(sequence(header, body, protection), by, fields["pvno"], fields["sender"], fields["tid"], fields["nonce"])


def nested(by, inner, **changes):
    """A message around others."""
    return message(by, der(NESTED, sequence(*inner)), **changes)


def subject(name):
    return der(0xA5, name)


def public(info):
    """The field of a template with a key."""
    return der(0xA6, first(info)[1])


def asked(*fields, number=0, controls=b""):
    """A CertRequest over a template with these fields."""
    return sequence(integer(number), sequence(*fields), controls)


def proof(key, request):
    """The proof of possession of the key of a request, by a signature."""
    return der(0xA1, HSS_LMS, bits(key.sign(request)))


def requests(tag, *entries):
    """The body of an ir, cr or kur: pairs of a request and its proof."""
    return der(tag, sequence(*(sequence(*entry) for entry in entries)))


def enrolment(tag, key, name=None, **changes):
    """Such a body for this key, which proves that it is possessed, in its own name or another."""
    request = asked(subject(name or key.name), public(key.info), **changes)
    return requests(tag, (request, proof(key, request)))


def pkcs10(key, version=0, name=None, info=None, attributes=b"", algorithm=HSS_LMS, sign=None):
    """The body of a p10cr."""
    text = sequence(integer(version), key.name if name is None else name, info or key.info, der(0xA0, attributes))
    return der(P10CR, sequence(text, algorithm, bits((sign or key.sign)(text))))


def status_info(status, text=None, bit=None):
    """A PKIStatusInfo: the status, and the text and the bit of a failInfo."""
    fail = b"" if bit is None else der(0x03, bytes([7 - bit % 8]), bytes(bit // 8), bytes([0x80 >> bit % 8]))
    return sequence(integer(status), b"" if text is None else sequence(der(0x0C, text.encode())), fail)


def confirmation(certificate, number=0, status=None, algorithm=None):
    """One status of a certConf."""
    told = b"" if status is None else status_info(status)
    return sequence(octet_string(hashlib.sha256(certificate).digest()), integer(number), told, optional(0xA0, algorithm))


def confirmations(*statuses):
    return der(CERTCONF, sequence(*statuses))


def polls(*numbers):
    return der(POLLREQ, sequence(*(sequence(integer(number)) for number in numbers)))


def extension(name, value, critical=False):
    return sequence(oid(name), der(0x01, b"\xff") if critical else b"", octet_string(value))


def reason(code):
    return extension("2.5.29.21", der(0x0A, bytes([code])))


def revocation(*fields, details=None):
    """One entry of an rr."""
    return sequence(sequence(*fields), b"" if details is None else sequence(*details))


def revocations(*entries):
    return der(RR, sequence(*entries))


def issued(serial, issuer=AUTHORITY):
    """The two fields of a template by which a certificate is named."""
    return der(0x81, integer(serial)[2:]), der(0xA3, issuer)


def certificate_parts(certificate):
    """Of a certificate the whole of what is signed, the fields of that, and the signature."""
    signed, _, signature = items(first(certificate)[1])
    return signed[2], items(signed[1]), signature[1][1:]


def key_of(certificate):
    return items(certificate_parts(certificate)[1][6][1])[1][1][1:]


def serial_of(certificate):
    return int.from_bytes(certificate_parts(certificate)[1][1][1], "big")


def signed_by(certificate, root):
    """Whether a certificate's signature holds under the root's key."""
    text, _, signature = certificate_parts(certificate)
    return hss_ok(key_of(root), text, signature)


class Reply:
    """A reply: the fields of its header by their tags, its body, and what protects it."""

    def __init__(self, octets):
        (_, header, self.header), (self.tag, self.body, whole_body), *behind = items(first(octets)[1])
        self.fields = {tag: first(content)[1] for tag, content, _ in items(header)[3:]}
        self.protected = sequence(self.header, whole_body)
        self.behind = {tag: first(content)[1] for tag, content, _ in behind}

    def salt_and_rounds(self):
        """The parameters of its PBMAC1."""
        _, derivation = items(items(items(self.fields[0xA1])[1][1])[0][1])
        salt, rounds = items(derivation[1])[:2]
        return salt[1], int.from_bytes(rounds[1], "big")

    def holds_under(self, secret):
        """Whether its MAC is that of a shared secret."""
        return hmac.compare_digest(self.behind[0xA0][1:], secret.mac(*self.salt_and_rounds(), self.protected))

    def holds_by(self, root):
        """Whether its signature is by the key of the certificate that it carries, with the serial number 2, which the root signed."""
        certificate, signature = first(self.behind[0xA1])[2], self.behind[0xA0][1:]
        return serial_of(certificate) == 2 and signed_by(certificate, root) and hss_ok(key_of(certificate), self.protected, signature)

    def response(self):
        """The parts of the one response of an ip, cp or kup."""
        return items(items(items(first(self.body)[1])[-1][1])[0][1])

    def status(self):
        return items(self.response()[1][1])[0][1][0]

    def certificate(self):
        """The certificate that it grants."""
        return first(items(self.response()[2][1])[0][1])[2]

    def root(self):
        """The authority's certificate, which an ip carries."""
        return items(first(items(first(self.body)[1])[0][1])[1])[0][2]
