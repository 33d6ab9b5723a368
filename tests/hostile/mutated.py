"""Mutants of a message of each body, each answered by `take` over a journal in which transactions stand in several ways.

Words: the program, a folder to work in, and how many mutants. No run may crash, hang or end with a status that isn't that of an answer
or a refusal; a message that is refused changes no octet of the journal; one that is answered adds one change at most, behind those that
stood there; and no transactionID gets a second certificate.
"""

import os
import sys
from concurrent.futures import ThreadPoolExecutor

from stand import ERROR, Stand, granted_tids, is_whole, payloads
from cmp_messages import (
    AUTHORITY, CR, IR, KUR, NULL, Key, Reply, Secret, confirmation, confirmations, der, directory_name, enrolment, integer, issued,
    message, nested, oid, pkcs10, polls, revocation, revocations, sequence)
from course import SETTINGS, credential
from mutants import mutants

UNSERVED = [tag for tag in range(27) if tag not in (0, 2, 4, 7, 11, 20, 24, 25)]


class Place:
    """A journal in which two certificates are confirmed, one of a device with a key; one is open, and one is waited for."""

    def __init__(self, run):
        self.run, self.replies = run, {}
        self.device, self.waiter, self.gateway, self.revoker = (
            Secret(name, f"the secret of {name}".encode(), 3) for name in ("dev-1", "dev-2", "ra-1", "ra-2"))
        self.signer, self.old = Key("dev-3"), Key("device-old")
        run.check("init", run.cmpca(["init"], SETTINGS.encode())[0] == 0)
        listed = "".join([
            credential(self.device, ["enrol"]), credential(self.waiter, ["enrol"], hold=True), credential(self.gateway, ["wrap"]),
            credential(self.revoker, ["revoke"]), credential(self.signer, ["enrol"])])
        run.check("enlist", run.cmpca(["enlist"], listed.encode()) == (0, b"enlisted 5\n"))
        self.send(b"A", message(self.device, enrolment(IR, Key("device-A")), tid=b"A"))
        self.send(b"A", self.confirms(self.device, b"A"))
        self.send(b"B", message(self.device, enrolment(IR, Key("device-B")), tid=b"B"))
        self.send(b"C", message(self.waiter, enrolment(CR, Key("device-C")), tid=b"C"))
        self.send(b"L", message(self.signer, enrolment(CR, self.old), tid=b"L"))
        self.send(b"L", self.confirms(self.signer, b"L"))

    def send(self, tid, sent):
        status, reply = self.run.cmpca(["take"], sent.octets)
        self.run.check(f"before the mutants, {tid}: {status}", status == 0)
        self.replies[tid] = Reply(reply)

    def nonce(self, tid):
        return self.replies[tid].fields[0xA5]

    def confirms(self, by, tid):
        accepts = confirmations(confirmation(self.replies[tid].certificate(), status=0))
        return message(by, accepts, tid=tid, received=self.nonce(tid))


def bodies(place):
    """A message of each body, and whether it is answered."""
    device = place.device
    old = sequence(sequence(oid("1.3.6.1.5.5.7.5.1.5"), sequence(directory_name(AUTHORITY), integer(5))))
    new = [Key("device-old" if number == 3 else f"device-{number}") for number in range(6)]
    yield "ir", message(device, enrolment(IR, new[0])), True
    yield "cr", message(place.signer, enrolment(CR, new[1])), True
    yield "p10cr", message(device, pkcs10(new[2])), True
    yield "kur", message(place.old, enrolment(KUR, new[3], controls=old)), True
    yield "certConf", place.confirms(device, b"B"), True
    yield "pollReq", message(place.waiter, polls(0), tid=b"C", received=place.nonce(b"C")), True
    yield "rr", message(place.revoker, revocations(revocation(*issued(3)))), True
    yield "nested ir", nested(place.gateway, [message(device, enrolment(IR, new[4])).octets]), True
    yield "nested cr", nested(place.gateway, [message(place.signer, enrolment(CR, new[5])).octets]), True
    for tag in UNSERVED:
        yield f"body {tag}", message(device, der(0xA0 + tag, NULL if tag == 19 else sequence())), False


def judged(before, after, status, reply):
    """What is wrong with an answer, or None."""
    if status not in (0, 1):
        return f"status {status}"
    if not is_whole(reply):
        return f"no whole reply: {reply[:60].hex()}"
    if status == 1:
        if after != before:
            return "refused, and the journal is another"
        return None if Reply(reply).tag == ERROR else f"refused by the body {Reply(reply).tag - 0xA0}"
    old, new = payloads(before), payloads(after)
    if new[: len(old)] != old or len(new) > len(old) + 1:
        return "answered, and the journal doesn't go on by one change at most"
    tids = granted_tids(after)
    return None if len(tids) == len(set(tids)) else "a transactionID has a second certificate"


def play(run, start, number, cases):
    """Takes messages one after the other over a journal, which begins again where it has ten changes more."""
    journal, wrong, done = f"journal-{number}", [], 0
    run.write(journal, start)
    for title, octets, _ in cases:
        before = run.read(journal)
        status, reply = run.cmpca(["take"], octets, journal=journal)
        after = run.read(journal)
        fault = judged(before, after, status, reply)
        done += status == 0
        if fault is not None:
            wrong.append(f"{title}: {fault}: {octets.hex()}")
        if fault is not None or len(payloads(after)) >= len(payloads(start)) + 10:
            run.write(journal, start)
    os.remove(run.file(journal))
    return wrong, done


def main():
    run, count = Stand(*sys.argv[1:3]), int(sys.argv[3])
    place = Place(run)
    start, cases = run.read("journal"), []
    for title, sent, is_served in bodies(place):
        run.write("whole", start)
        status, reply = run.cmpca(["take"], sent.octets, journal="whole")
        run.check(f"{title}, unchanged: status {status} with {reply[:300]!r}", status == (0 if is_served else 1))
        cases.append((title, sent.octets, getattr(sent.by, "secret", b"")))
        # What its sender is refused by is looked at in more of the mutants where the message is served.
        cases += cases[-1:] * (4 if is_served else 0)
    changed, workers = list(mutants(cases, count)), os.cpu_count()
    done = 0
    with ThreadPoolExecutor(workers) as pool:
        for wrong, answered in pool.map(lambda number: play(run, start, number, changed[number::workers]), range(workers)):
            run.differs += wrong
            done += answered
    run.agreed += count - len(run.differs)
    print(f"{count} mutants of {len(cases)} messages, {done} of them answered and the rest refused")
    return run.end()


if __name__ == "__main__":
    sys.exit(main())
