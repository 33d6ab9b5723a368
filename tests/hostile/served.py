"""`serve` killed at random moments under load, each time followed by a mount and a start on the same port.

Words: the program, a folder to work in, and how many runs are killed. Devices with a secret and with a key enrol at once, each over a
connection that is kept; what gets no whole reply is sent again, and what got one is sent once more and gets the same octets. After each kill
`show` tells a history that begins with the one before. At last each message gets once more the reply that it got, each transactionID has one
certificate, each message has made one change, and no leaf of the authority has signed two texts, of all certificates and replies received.
"""

import http.client
import os
import random
import signal
import sys
import threading
import time
from concurrent.futures import ThreadPoolExecutor

from stand import Stand, granted_tids, payloads
from killed import LEAVES, Signed
from cmp_messages import CR, IR, Key, Reply, Secret, confirmation, confirmations, enrolment, message
from course import SETTINGS, credential
from over_http import PATH, TYPE, Server, free_port

DEVICES = WORKERS = 4
CONNECTIONS = 1_000_000
PATIENCE = 300


class Home:
    """An authority that serves and is killed, and devices that enrol at it."""

    def __init__(self, run, signed, number):
        self.run, self.signed, self.journal, self.port = run, signed, f"journal-{number}", free_port()
        self.chance = random.Random(number)
        self.by = Secret("dev-1", b"the secret of dev-1", 3), Key("dev-2", tree=6)
        self.leaves = threading.Lock()
        self.replies, self.again, self.faults, self.kills = {}, 0, [], 0
        self.until = time.monotonic() + PATIENCE
        listed = "".join(credential(by, ["enrol"]) for by in self.by)
        self.see("init", run.cmpca(["init"], SETTINGS.encode(), journal=self.journal)[0] == 0)
        self.see("enlist", run.cmpca(["enlist"], listed.encode(), journal=self.journal)[0] == 0)
        run.write(f"orders-{number}", b"")
        self.orders = f"orders-{number}"
        self.stood = payloads(run.read(self.journal))

    def see(self, what, holds):
        if not holds:
            self.faults.append(f"{self.journal}: {what}")

    def start(self):
        return Server(self.run, WORKERS, CONNECTIONS, port=self.port, orders=self.orders, journal=self.journal)

    def message(self, by, body, **changes):
        """A message, for which a key of several threads takes its next leaf."""
        with self.leaves:
            return message(by, body, **changes).octets

    def post(self, octets):
        """The first whole reply to a message, which is sent until one comes."""
        link, tries = http.client.HTTPConnection("127.0.0.1", self.port, timeout=30), 0
        while time.monotonic() < self.until:
            tries += 1
            try:
                link.request("POST", PATH, octets, {"Content-Type": TYPE})
                answer = link.getresponse()
                body = answer.read()
                if answer.status == 200:
                    self.again += tries > 1
                    return body
            except (OSError, http.client.HTTPException):
                link.close()
                time.sleep(0.002)
        raise TimeoutError("no reply")

    def ask(self, octets):
        reply = self.replies[octets] = self.post(octets)
        self.signed.reply(self.journal, reply)
        self.see("the same octets again", self.post(octets) == reply)
        return Reply(reply)

    def enrol(self, number):
        by, tid = self.by[number % 2], b"transaction %d" % number
        granted = self.ask(self.message(by, enrolment((IR, CR)[number % 2], Key(f"device-{number}")), tid=tid))
        accepts = confirmations(confirmation(granted.certificate(), status=0))
        self.ask(self.message(by, accepts, tid=tid, received=granted.fields[0xA5]))

    def devices(self):
        """Enrols all devices, some at once."""
        with ThreadPoolExecutor(DEVICES) as pool:
            for done in [pool.submit(self.enrol, number) for number in range(LEAVES)]:
                try:
                    done.result()
                except (OSError, IndexError, KeyError, ValueError) as fault:
                    self.see(f"an enrolment that didn't come to its end: {fault!r}", False)

    def mount(self):
        """What stands after a kill: the changes from before and some more, which `show` tells."""
        stands = payloads(self.run.read(self.journal))
        self.see("the changes from before", stands[: len(self.stood)] == self.stood)
        self.stood = stands
        status, shown = self.run.cmpca(["show"], b"", journal=self.journal)
        self.see(f"show: {status}", status == 0 and shown.startswith(b"changes %d\n" % len(stands)))

    def play(self, kills):
        """Kills the server again and again while devices enrol; then it serves until they have."""
        at_work = threading.Thread(target=self.devices)
        server = self.start()
        try:
            begun = time.monotonic()
            self.post(b"no message")
            span = 4 * (time.monotonic() - begun)
            at_work.start()
            while at_work.is_alive() and self.kills < kills:
                time.sleep(self.chance.random() * span)
                server.stop(signal.SIGKILL)
                self.kills += 1
                self.mount()
                server = self.start()
                self.see("a start on the same port", server.process.poll() is None)
            at_work.join()
            for octets, reply in self.replies.items():
                self.see("at last the reply that was received", self.post(octets) == reply)
        finally:
            server.stop(signal.SIGKILL)
        self.mount()
        tids = granted_tids(self.run.read(self.journal))
        self.see(f"one certificate each: {len(tids)}", len(tids) == len(set(tids)) == LEAVES)
        self.see(f"two changes each: {len(self.stood)}", len(self.stood) == 2 + 2 * LEAVES)


def main():
    run, count, signed = Stand(*sys.argv[1:3]), int(sys.argv[3]), Signed()
    kills = replies = again = number = 0
    while kills < count:
        home = Home(run, signed, number)
        home.play(count - kills)
        run.differs += home.faults
        kills, replies, again, number = kills + home.kills, replies + len(home.replies), again + home.again, number + 1
    run.differs += signed.twice
    run.agreed = kills - len(run.differs)
    print(f"{kills} runs killed, {replies} replies, {again} of them after another try; {len(signed.texts)} leaves seen")
    return run.end()


if __name__ == "__main__":
    sys.exit(main())
