"""A journal that `cmpca` writes, beside what Python knows of the history in it, so that each reply is compared octet for octet."""

import calendar
import copy
import os
import time

from authority import Authority
from cmp_messages import Key, Reply, Secret

OTS, ROUNDS, WAIT, SKEW, CHECK_AFTER, DAYS = 2, 7, 7_200, 3_600, 60, 365
SETTINGS = f"""name = "Fleet CA"
issue_tree = 5
issue_ots = {OTS}
reply_tree = 5
reply_ots = {OTS}
wait = {WAIT}
skew = {SKEW}
rounds = {ROUNDS}
check_after = {CHECK_AFTER}
days = {DAYS}
"""


def payloads(journal):
    """The changes in a journal: behind its first eight octets, each after an octet 1 and its length."""
    found, at = [], 8
    while at < len(journal) and journal[at] == 1:
        size = int.from_bytes(journal[at + 1 : at + 5], "big")
        found.append(journal[at + 5 : at + 5 + size])
        at += 5 + size
    return found


def credential(by, rights, hold=False):
    """A table of the file of credentials."""
    if isinstance(by, Secret):
        named = f'kind = "mac"\nreference = "{by.kid.decode()}"\nsecret = "{by.secret.hex()}"\n'
    else:
        named = f'kind = "lms"\nkey = "{by.octets.hex()}"\n'
    listed = ", ".join(f'"{right}"' for right in rights)
    return f"[[credential]]\n{named}rights = [{listed}]\nhold = {str(hold).lower()}\n"


class Course:
    """A journal, with its authority; how many certificates and Reply leaves there are, and the last reply of each transaction."""

    def __init__(self, run, credentials):
        self.run, self.journal, self.grants, self.leaves, self.replies, self.span = run, "journal", 0, 0, {}, None
        founded = self.command("init", SETTINGS)
        self.run.check(f"init: {founded}", founded[0] == 0)
        self.authority = self.authority_at(int.from_bytes(payloads(run.read("journal"))[0][1:9], "big"))
        listed = self.command("enlist", "".join(credentials))
        self.run.check(f"enlist: {listed}", listed == (0, f"enlisted {len(credentials)}\n".encode()))

    def authority_at(self, founded):
        return Authority(self.run.read("key"), founded, OTS, ROUNDS, WAIT, CHECK_AFTER, DAYS)

    def command(self, words, content=""):
        begun = int(time.time())
        ended = self.run.cmpca(words.split(), content.encode(), journal=self.journal)
        self.span = begun, int(time.time())
        return ended

    def obey(self, words, line):
        """Gives an order, which must be obeyed."""
        got = self.command(words)
        self.run.check(f"{words}: {got}", got == (0, line))

    def fork(self, journal, moved=0):
        """The same in another file, where each time of the history is moved by so many seconds."""
        fork, octets = copy.copy(self), self.run.read(self.journal)
        if moved:
            for at in range(self.authority.founded, self.span[1] + 1):
                octets = octets.replace(at.to_bytes(8, "big"), (at + moved).to_bytes(8, "big"))
            fork.authority = self.authority_at(self.authority.founded + moved)
            fork.span = tuple(at + moved for at in self.span)
        fork.journal, fork.replies = journal, dict(self.replies)
        with open(self.run.file(journal), "wb") as file:
            file.write(octets)
        return fork

    def nonce(self, tid):
        """The senderNonce of the last reply of a transaction."""
        return Reply(self.replies[tid]).fields[0xA5]

    def certificate(self, tid):
        return Reply(self.replies[tid]).certificate()

    def wanted(self, sent, answer, octets, signs):
        """The reply that must come, at the time and by the random words of the one that came."""
        reply = Reply(octets)
        at, nonce = time_of(reply), reply.fields[0xA5]
        salt = reply.salt_and_rounds()[0] if 0xA1 in reply.fields and not signs else b""
        body = answer.body(self.authority, at, self.grants + 3)
        leaf = self.leaves if signs else None
        return self.authority.reply(sent, body, answer.info(self.authority, at), at, nonce, salt, answer.guarded, leaf)

    def take(self, sent, answer):
        """Lets a message be answered, and says what differs, in words; else counts what it changed."""
        before = payloads(self.run.read(self.journal))
        begun = int(time.time())
        status, octets = self.run.cmpca(["take"], sent.octets, journal=self.journal)
        ended = int(time.time())
        new = payloads(self.run.read(self.journal))[len(before) :]
        changed = new[0][0] if len(new) == 1 else None if not new else "more"
        if (status, changed) != (answer.status, answer.change):
            return f"status {answer.status} and change {answer.change}, not {status} and {changed} with {told(octets)}"
        if new and not new[0].endswith(answer.tail):
            return f"a change that ends with {answer.tail.hex()}, not {new[0].hex()}"
        if answer.stored is not None:
            return None if octets == answer.stored else f"the stored reply, not {told(octets)}"
        return self.compare(sent, answer, octets, (begun, ended))

    def compare(self, sent, answer, octets, span):
        """What differs in a reply, that came at a time in this span."""
        signs = answer.change is not None and isinstance(sent.by, Key)
        try:
            wanted, reply = self.wanted(sent, answer, octets, signs), Reply(octets)
        except (IndexError, KeyError, ValueError) as fault:
            return f"a reply of another form ({fault!r}): {told(octets)}"
        macs = 0xA0 in reply.behind and not signs
        if octets != wanted:
            begins = len(os.path.commonprefix([wanted, octets]))
            return f"{told(wanted)}, not {told(octets)}, which is another from octet {begins} on"
        if not max(span[0], self.span[0]) <= time_of(reply) <= max(span[1], self.span[1]):
            return "another time"
        if len(reply.fields[0xA5]) != 16 or macs and len(reply.salt_and_rounds()[0]) != 16:
            return "words of another length"
        if signs and not reply.holds_by(self.authority.root) or macs and not reply.holds_under(sent.by):
            return "protection that doesn't hold"
        if answer.change is not None:
            self.count(sent, answer, octets, signs, span)
        return None

    def count(self, sent, answer, octets, signs, span):
        """Keeps what a change adds to the history."""
        self.leaves += signs
        self.grants += answer.is_grant
        self.span = span
        self.replies[sent.tid] = octets

    def step(self, what, sent, answer):
        """Does so, and counts it as a comparison."""
        differs = self.take(sent, answer)
        self.run.check(f"{what}: {differs}", differs is None)
        return self.replies.get(sent.tid)


def time_of(reply):
    return calendar.timegm(time.strptime(reply.fields[0xA0].decode(), "%Y%m%d%H%M%SZ"))


def told(octets):
    """A reply in short: how its body begins, its length, and what protects it."""
    try:
        reply = Reply(octets)
        return f"[{reply.tag - 0xA0}] {reply.body[:48].hex()} of {len(octets)} octets, protected by {sorted(map(hex, reply.behind))}"
    except (IndexError, ValueError):
        return f"{octets[:80]!r}"
