"""`take` killed at random moments under load, each time followed by a mount.

Words: the program, a folder to work in, and how many runs are killed. In each of some threads a run gets a message and is killed, at a
moment within twice the time that such a run takes. Then `show` must tell a history of the same changes, or of one more; and the same
message is answered at last: with the same octets where its reply was received in full, or its change stood already. At the end no leaf
of the authority has signed two texts, of all certificates and replies ever received, and no transactionID has two certificates.
"""

import os
import random
import subprocess
import sys
import threading
import time
from concurrent.futures import ThreadPoolExecutor

from stand import GRANTED, Stand, granted_tids, is_whole, payloads
from cmp_messages import CR, IR, Key, Reply, Secret, certificate_parts, confirmation, confirmations, enrolment, message
from course import SETTINGS, credential

LEAVES = 28


class Signed:
    """Each text that a leaf signed, of each authority and each of its keys."""

    def __init__(self):
        self.texts, self.lock, self.twice = {}, threading.Lock(), []

    def put(self, key, signature, text):
        with self.lock:
            if self.texts.setdefault((*key, signature[4:8]), text) != text:
                self.twice.append(f"{key}: leaf {signature[4:8].hex()}")

    def reply(self, home, octets):
        """A reply that was received: what signs it, and what signs the certificate in it."""
        reply = Reply(octets)
        if 0xA1 in reply.behind:
            self.put((home, "reply"), reply.behind[0xA0][1:], reply.protected)
        if reply.tag in GRANTED:
            text, _, signature = certificate_parts(reply.certificate())
            self.put((home, "issue"), signature, text)


class Home:
    """An authority whose runs are killed: a journal, a device with a secret and one with a key."""

    def __init__(self, run, signed, number):
        self.run, self.signed, self.journal = run, signed, f"journal-{number}"
        self.chance = random.Random(number)
        self.by = Secret("dev-1", b"the secret of dev-1", 3), Key("dev-2")
        self.faults, self.kills, self.whole = [], 0, 0
        listed = "".join(credential(by, ["enrol"]) for by in self.by)
        self.see("init", run.cmpca(["init"], SETTINGS.encode(), journal=self.journal)[0] == 0)
        self.see("enlist", run.cmpca(["enlist"], listed.encode(), journal=self.journal)[0] == 0)
        self.span = 0.1

    def see(self, what, holds):
        if not holds:
            self.faults.append(f"{self.journal}: {what}")

    def killed(self, octets):
        """What a run wrote that is killed at a random moment, or that was done before it."""
        words = [self.run.program, self.run.file(self.journal), self.run.file("key"), "take"]
        with open(self.run.file(self.journal + ".in"), "wb") as file:
            file.write(octets)
        with open(self.run.file(self.journal + ".in"), "rb") as sent:
            one = subprocess.Popen(words, stdin=sent, stdout=subprocess.PIPE, stderr=subprocess.DEVNULL)
        time.sleep(self.chance.random() * 2 * self.span)
        one.kill()
        self.kills += 1
        return one.communicate()[0]

    def mount(self, before):
        """The changes that stand after it: those from before, and one more at most."""
        status, shown = self.run.cmpca(["show"], b"", journal=self.journal)
        after = payloads(self.run.read(self.journal))
        self.see(f"show: {status}", status == 0 and shown.startswith(b"changes %d\n" % len(after)))
        self.see("the changes from before", after[: len(before)] == before and len(after) <= len(before) + 1)
        return after

    def step(self, sent, turns):
        """Lets runs with a message be killed, and then one be done; its reply."""
        received = []
        for _ in range(turns):
            before = payloads(self.run.read(self.journal))
            octets = self.killed(sent.octets)
            after = self.mount(before)
            if is_whole(octets):
                self.whole += 1
                received.append(octets)
                self.signed.reply(self.journal, octets)
                self.see("a reply that was received is in the history", any(sent.tid in change for change in after))
        stood = payloads(self.run.read(self.journal))
        begun = time.monotonic()
        status, reply = self.run.cmpca(["take"], sent.octets, journal=self.journal)
        self.span = (self.span + time.monotonic() - begun) / 2
        self.see(f"at last: {status}", status == 0 and is_whole(reply))
        self.see("at last: the reply that was received", all(octets == reply for octets in received))
        if received:
            self.see("at last: nothing more in the history", payloads(self.run.read(self.journal)) == stood)
        self.signed.reply(self.journal, reply)
        return Reply(reply)

    def enrol(self, number):
        """An enrolment, whose runs are killed."""
        by, tid = self.by[number % 2], b"transaction %d" % number
        reply = self.step(message(by, enrolment((IR, CR)[number % 2], Key(f"device-{number}")), tid=tid), 5)
        accepts = confirmations(confirmation(reply.certificate(), status=0))
        self.step(message(by, accepts, tid=tid, received=reply.fields[0xA5]), 5)

    def play(self, most):
        for number in range(min(LEAVES, most // 10)):
            try:
                self.enrol(number)
            except (IndexError, KeyError, ValueError) as fault:
                self.see(f"a reply of another form: {fault!r}", False)
                break
        tids = granted_tids(self.run.read(self.journal))
        self.see("one certificate each", len(tids) == len(set(tids)) and len(tids) == min(LEAVES, most // 10))
        return self


def main():
    run, count, signed = Stand(*sys.argv[1:3]), int(sys.argv[3]), Signed()
    homes = max(-(-count // (10 * LEAVES)), min(2 * os.cpu_count(), count // 10), 1)
    share = -(-count // (10 * homes)) * 10
    with ThreadPoolExecutor(2 * os.cpu_count()) as pool:
        played = list(pool.map(lambda number: Home(run, signed, number).play(share), range(homes)))
    for home in played:
        run.differs += home.faults
    run.differs += signed.twice
    kills = sum(home.kills for home in played)
    run.agreed = kills - len(run.differs)
    print(f"{kills} runs killed, {sum(home.whole for home in played)} of them after their whole reply; {len(signed.texts)} leaves seen")
    return run.end()


if __name__ == "__main__":
    sys.exit(main())
