"""Devices in Python's hashlib, hmac and os alone, whose messages and keys stand in a folder of files.

Words: the step, the folder, and the first octet in hex from which the transactionIDs are numbered, or none for 00. Device 1 enrols under
a shared secret: `request` writes ir.der, for a new HSS/LMS key; `confirm` reads ip.der, checks its MAC and the certificate's signature,
and writes certconf.der; `done` reads pkiconf.der. Then `renew` writes kur.der, for a second key under a signature of the first;
`renewed` reads kup.der and checks its signature and the certificate. Device 2 has to wait: `ask` writes cr.der; `poll` reads waiting.der
and writes pollreq.der; `again` reads pollrep.der and writes again.der; `fetch` reads cp.der. At last device 1 gives its first certificate
up: `revoke` writes rr.der, `revoked` reads rp.der. Each says what it did, and ends with status 1 where a check fails.
"""

import os
import sys

from cmp_messages import (
    AUTHORITY, CR, IR, KUR, NULL, Key, Reply, Secret, confirmation, confirmations, directory_name, enrolment, integer, issued, items,
    message, oid, polls, reason, revocation, revocations, sequence, serial_of, signed_by, u32)

DEVICE_1, DEVICE_2 = Secret("dev-1", b"secret-1", 1000), Secret("dev-2", b"secret-2", 1000)
# Where the transactionIDs of the four transactions begin, where the first one's is 00
ENROLMENT, RENEWAL, WAITING, REVOCATION = 0x00, 0x10, 0x20, 0x30
IMPLICIT = sequence(sequence(oid("1.3.6.1.5.5.7.4.13"), NULL))
SUPERSEDED = 4


def tid_at(start):
    """A transactionID of 16 octets, of which each is the next number."""
    return bytes(range(start, start + 16))


class Folder:
    """Files by their names. A key's file is its seed, its identifier and the number of leaves that signed."""

    def __init__(self, path, start=0x00):
        self.path, self.start = path, start

    def tid(self, of):
        return tid_at(self.start + of)

    def read(self, name):
        with open(os.path.join(self.path, name), "rb") as file:
            return file.read()

    def write(self, name, octets):
        with open(os.path.join(self.path, name), "wb") as file:
            file.write(octets)

    def key(self, name):
        octets = self.read(f"{name}.key")
        return new_key(octets[:32], octets[32:48], int.from_bytes(octets[48:], "big"))

    def keep(self, name, key):
        self.write(f"{name}.key", key.parts[2] + key.parts[3] + u32(key.used))

    def send(self, name, sent):
        self.write(name, sent.octets)
        return True


def new_key(seed=None, identifier=None, used=0):
    """A key of height 5 and w = 8."""
    return Key("device", ots=4, seed=seed, identifier=identifier, used=used)


def ask_for(key, tid):
    """An ir for a certificate over this key, which signs the request."""
    return message(DEVICE_1, enrolment(IR, key), tid=tid)


def request():
    """An ir for a new key, in octets."""
    return ask_for(new_key(), tid_at(ENROLMENT)).octets


def tell(what, holds):
    print(f"  {what} {'holds' if holds else 'FAILS'}")
    return holds


def tell_certificate(reply, root):
    certificate = reply.certificate()
    return tell(f"certificate with serial {serial_of(certificate)}, its signature", signed_by(certificate, root))


def begin(folder):
    key = new_key()
    sent = ask_for(key, folder.tid(ENROLMENT))
    folder.keep("first", key)
    return folder.send("ir.der", sent)


def confirm(folder):
    reply = Reply(folder.read("ip.der"))
    holds = tell("MAC of the ip", reply.holds_under(DEVICE_1)) and tell_certificate(reply, reply.root())
    accepts = confirmations(confirmation(reply.certificate(), status=0))
    return holds and folder.send("certconf.der", message(DEVICE_1, accepts, tid=folder.tid(ENROLMENT), received=reply.fields[0xA5]))


def done(folder):
    reply = Reply(folder.read("pkiconf.der"))
    return tell("pkiconf, its MAC", reply.tag == 0xB3 and reply.holds_under(DEVICE_1))


def renew(folder):
    first, second = folder.key("first"), new_key()
    serial = serial_of(Reply(folder.read("ip.der")).certificate())
    old = sequence(sequence(oid("1.3.6.1.5.5.7.5.1.5"), sequence(directory_name(AUTHORITY), integer(serial))))
    sent = message(first, enrolment(KUR, second, controls=old), tid=folder.tid(RENEWAL), info=IMPLICIT)
    folder.keep("first", first)
    folder.keep("second", second)
    return folder.send("kur.der", sent)


def renewed(folder):
    root, reply = Reply(folder.read("ip.der")).root(), Reply(folder.read("kup.der"))
    return tell("signature of the kup", reply.tag == 0xA8 and reply.holds_by(root)) and tell_certificate(reply, root)


def ask(folder):
    key = new_key()
    sent = message(DEVICE_2, enrolment(CR, key), tid=folder.tid(WAITING), info=IMPLICIT)
    folder.keep("third", key)
    return folder.send("cr.der", sent)


def poll_after(folder, reply, name):
    return folder.send(name, message(DEVICE_2, polls(0), tid=folder.tid(WAITING), received=reply.fields[0xA5]))


def poll(folder):
    reply = Reply(folder.read("waiting.der"))
    holds = tell("cp with the status waiting, its MAC", reply.status() == 3 and reply.holds_under(DEVICE_2))
    return holds and poll_after(folder, reply, "pollreq.der")


def again(folder):
    reply = Reply(folder.read("pollrep.der"))
    after = int.from_bytes(items(items(items(reply.body)[0][1])[0][1])[1][1], "big")
    holds = tell(f"pollRep: to be asked again after {after} seconds, its MAC", reply.tag == 0xBA and reply.holds_under(DEVICE_2))
    return holds and poll_after(folder, reply, "again.der")


def fetch(folder):
    root, reply = Reply(folder.read("ip.der")).root(), Reply(folder.read("cp.der"))
    return tell("MAC of the cp", reply.tag == 0xA3 and reply.holds_under(DEVICE_2)) and tell_certificate(reply, root)


def revoke(folder):
    entry = revocation(*issued(serial_of(Reply(folder.read("ip.der")).certificate())), details=[reason(SUPERSEDED)])
    return folder.send("rr.der", message(DEVICE_1, revocations(entry), tid=folder.tid(REVOCATION)))


def revoked(folder):
    reply = Reply(folder.read("rp.der"))
    return tell("rp, its MAC", reply.tag == 0xAC and reply.holds_under(DEVICE_1))


STEPS = {"request": begin, "confirm": confirm, "done": done, "renew": renew, "renewed": renewed, "ask": ask, "poll": poll,
         "again": again, "fetch": fetch, "revoke": revoke, "revoked": revoked}

if __name__ == "__main__":
    sys.exit(0 if STEPS[sys.argv[1]](Folder(sys.argv[2], *(int(word, 16) for word in sys.argv[3:]))) else 1)
