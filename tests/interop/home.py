"""Devices, and a journal of `cmpca` in which each of their transactions stands in another way."""

from authority import CP, IP, Wish, denied, granted, revoked, settled, waiting
from cmp_messages import (
    CR, IR, NULL, Key, Reply, Secret, asked, bits, common_name, confirmation, confirmations, der, enrolment, issued, message, oid, pkcs10,
    polls, public, requests, revocation, revocations, sequence, subject)
from course import WAIT, Course, credential, time_of

ROUNDS = 3
RA_VERIFIED = der(0x80)
ED25519 = sequence(oid("1.3.101.112"))
IMPLICIT = sequence(oid("1.3.6.1.5.5.7.4.13"), NULL)


def mac_device(reference):
    return Secret(reference, f"the secret of {reference}".encode(), ROUNDS)


def other_key(text):
    """A key of another algorithm (RFC 8410), of which nobody has the private part."""
    return sequence(ED25519, bits(text))


class Home:
    """The devices, and a journal in which each transaction stands in another way."""

    def __init__(self, run):
        self.device, self.waiter, self.leaver = map(mac_device, ("dev-1", "dev-2", "dev-3"))
        self.gateway, self.voucher, self.revoker, self.almighty = map(mac_device, ("ra-1", "ra-2", "ra-3", "ra-4"))
        self.signer, self.sealer, self.poller = Key("dev-5"), Key("ra-5"), Key("dev-6", tree=6)
        self.new = Key("device-new", tree=6)
        self.keys = {tid: Key(f"device-{tid}") for tid in "ABCDEFGHILPQX"}
        self.other = other_key(b"another key")
        self.course = Course(run, [
            credential(self.device, ["enrol"]), credential(self.waiter, ["enrol"], hold=True), credential(self.leaver, ["enrol"]),
            credential(self.gateway, ["wrap"]), credential(self.voucher, ["enrol", "vouch"]), credential(self.revoker, ["revoke"]),
            credential(self.almighty, ["enrol", "vouch", "wrap", "revoke"]), credential(self.signer, ["enrol"]),
            credential(self.sealer, ["wrap"]), credential(self.poller, ["enrol"], hold=True)])
        self.sent = {}
        self.grant_all()
        self.hold_all()
        shown = self.course.command("show")
        run.check(f"show: {shown}", shown == (0, self.lines().encode()))

    def wish(self, tid):
        return Wish(self.keys[tid].name, self.keys[tid].info)

    def send(self, what, by, tid, body, answer, **changes):
        """A message in a transaction, and the reply to it."""
        self.sent[what] = message(by, body, tid=tid.encode(), **changes)
        return self.course.step(what, self.sent[what], answer)

    def enrol(self, tid, by, tag, answer, **changes):
        body = pkcs10(self.keys[tid]) if tag is None else enrolment(tag, self.keys[tid])
        return self.send(f"request {tid}", by, tid, body, answer, **changes)

    def confirm(self, tid, by, status):
        body = confirmations(confirmation(self.course.certificate(tid.encode()), status=status))
        self.send(f"certConf {tid}", by, tid, body, settled(status == 0), received=self.nonce(tid))

    def nonce(self, tid):
        return self.course.nonce(tid.encode())

    def grant_all(self):
        """A is confirmed, B, I and L are open, G is rejected, H is revoked; N is over a key of another algorithm, X of one who left."""
        self.first = self.enrol("A", self.device, IR, granted(IP, self.wish("A")))
        self.confirm("A", self.device, 0)
        self.enrol("B", self.device, IR, granted(IP, self.wish("B")))
        self.enrol("G", self.device, IR, granted(IP, self.wish("G")))
        self.confirm("G", self.device, 2)
        self.enrol("H", self.device, IR, granted(IP, self.wish("H"), implicit=True), info=sequence(IMPLICIT))
        self.send("rr H", self.device, "R", revocations(revocation(*issued(6))), revoked(6, 0))
        self.enrol("I", self.device, None, granted(CP, self.wish("I"), number=-1))
        self.enrol("L", self.signer, CR, granted(CP, self.wish("L")))
        body = requests(IR, (asked(subject(common_name("device-N")), public(self.other)), RA_VERIFIED))
        wish = Wish(common_name("device-N"), self.other)
        self.send("request N", self.voucher, "N", body, granted(IP, wish, implicit=True), info=sequence(IMPLICIT))
        self.enrol("X", self.leaver, IR, granted(IP, self.wish("X")))
        self.course.obey("dismiss mac dev-3", b"dismissed\n")

    def hold_all(self):
        """C and P wait, D and Q are released, E is denied, and F is denied and told so."""
        self.enrol("C", self.waiter, None, waiting(CP, -1))
        self.enrol("D", self.waiter, CR, waiting(CP))
        self.enrol("E", self.waiter, None, waiting(CP, -1))
        self.enrol("F", self.waiter, IR, waiting(IP))
        self.enrol("P", self.poller, CR, waiting(CP))
        self.enrol("Q", self.poller, CR, waiting(CP))
        self.course.obey("release 44", b"released\n")
        self.course.obey("release 51", b"released\n")
        self.course.obey("deny 45", b"denied\n")
        self.course.obey("deny 46", b"denied\n")
        self.send("pollReq F", self.waiter, "F", polls(0), denied(IP), received=self.nonce("F"))

    def deadline(self, tid):
        return time_of(Reply(self.course.replies[tid.encode()])) + WAIT

    def lines(self):
        """How it all stands."""
        return f"""changes 25
issue 10 of 32
reply 3 of 32
cert 3 confirmed 41
cert 4 open {self.deadline("B")} 42
cert 5 revoked rejected 47
cert 6 revoked 0 48
cert 7 open {self.deadline("I")} 49
cert 8 open {self.deadline("L")} 4c
cert 9 confirmed 4e
cert 10 open {self.deadline("X")} 58
held 43
released 44
denied 45
denied 46
held 50
released 51
"""
