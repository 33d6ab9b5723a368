"""Feeds messages that others made to `cmpca verify` and compares the answers.

Words: the program, and the folder that Messages.java filled, if there is one. Prints how many answers agreed, and each
disagreement by its kind. Ends with status 1 where an answer differs from the one that is owed, or where a changed message
is accepted.
"""

import random
import subprocess
import sys
from collections import Counter, defaultdict
from concurrent.futures import ThreadPoolExecutor
from pathlib import Path

import handmade
import mutants
import reference
from mutants import Node, flipped, loose

USAGE = "usage: cmpca verify SECRET | JOURNAL KEY COMMAND"
FLIPS = 500
MUTANTS = 2000
SECONDS = 60
# Mutants are of messages that are short and whose MAC is soon made.
LONGEST_MUTATED, ROUNDS_MUTATED = 10_000, 1000


class Runs:
    """Runs of the program, and what disagreed."""

    def __init__(self, program: str):
        self.program = program
        self.agreements = 0
        self.disagreements: dict[str, list[str]] = defaultdict(list)

    def answer(self, message: bytes, *words: str) -> tuple[int, str]:
        try:
            run = subprocess.run([self.program, *words], input=message, capture_output=True, timeout=SECONDS)
        except subprocess.TimeoutExpired:
            return -1, f"no answer in {SECONDS} s"
        # A refusal has a line there too; whatever else stands there is no answer.
        if not all(line.startswith(b"cmpca: ") for line in run.stderr.splitlines()):
            return run.returncode, f"{run.stdout!r} and on standard error {run.stderr!r}"
        return run.returncode, run.stdout.decode("utf-8", "backslashreplace")

    def owed(self, message: bytes, secret: bytes) -> tuple[int, str]:
        text = reference.verdict(message, secret)
        return (0 if text == reference.VERIFIED else 1), text + "\n"

    def compare(self, cases, never_verified: bool = False) -> Counter:
        """Runs cases of a title, a message and a secret; counts the answers."""
        counts: Counter = Counter()
        with ThreadPoolExecutor(2) as pool:
            answers = pool.map(lambda case: self.answer(case[1], "verify", case[2].hex()), cases)
            for (title, message, secret), answer in zip(cases, answers):
                counts[answer[1].strip()] += 1
                owed = self.owed(message, secret)
                if answer != owed:
                    self.note(f"status {answer[0]}, {answer[1]!r} in the place of status {owed[0]}, {owed[1]!r}", title, message)
                elif never_verified and reference.VERIFIED in answer[1]:
                    self.note("a changed message is accepted", title, message)
                else:
                    self.agreements += 1
        return counts

    def note(self, kind: str, title: str, message: bytes) -> None:
        self.disagreements[kind].append(f"{title}; message {message[:200].hex()} of {len(message)} octets")

    def show_disagreements(self) -> int:
        """Prints each of them and gives how many they are."""
        for kind, texts in self.disagreements.items():
            print(f"DISAGREES  {len(texts)} times {kind}")
            for text in texts:
                print(f"  {text}")
        return sum(len(texts) for texts in self.disagreements.values())


# Bouncy Castle's messages

def read_others(folder: Path) -> list[tuple[str, str, bytes, bytes]]:
    """Bouncy Castle's own verdict, title, message and secret of each."""
    lines = [line.split("\t") for line in (folder / "index").read_text("utf-8").splitlines()]
    return [(verdict, title, (folder / file).read_bytes(), bytes.fromhex(secret)) for file, secret, verdict, title in lines]


def compare_others(runs: Runs, others: list[tuple[str, str, bytes, bytes]]) -> None:
    counts = runs.compare([case[1:] for case in others])
    print(f"messages of Bouncy Castle: {len(others)}")
    show(counts)
    same, profile = 0, 0
    for verdict, title, message, secret in others:
        owed = reference.verdict(message, secret)
        if verdict == "unread":
            continue
        if owed == reference.BAD_ALG:
            profile += 1
        elif (verdict == "verified") == (owed == reference.VERIFIED):
            same += 1
        else:
            runs.note(f"Bouncy Castle says {verdict}", title, message)
    print(f"  Bouncy Castle's own check says the same of {same}; {profile} it takes that are outside the profile (badAlg);")
    print("  the others its check doesn't read (no protection, bodies of any content, no keyLength, octets that are no text as secret)")


def can_be_mutated(message: bytes) -> bool:
    try:
        found = reference.frame(message)
        rounds = reference.mac_parameters(*found.named)[1] if found.named else 0
    except (reference.BadForm, reference.BadAlg):
        return False
    return len(message) <= LONGEST_MUTATED and rounds <= ROUNDS_MUTATED


def compare_mutants(runs: Runs, others: list[tuple[str, str, bytes, bytes]]) -> None:
    sources = [case[1:] for case in others if can_be_mutated(case[2])]
    cases = list(mutants.mutants(sources, MUTANTS))
    print(f"mutants of {len(sources)} of them: {len(cases)}")
    show(runs.compare(cases))


# Changed messages

def loose_lengths(message: bytes):
    """The message with one length in another form than DER's."""
    tree = Node(*reference.one(message))
    for place, node in enumerate(list(tree.all())):
        length = len(node.inside(Node.octets))
        least = 0 if length < 0x80 else (length.bit_length() + 7) // 8
        for width in (*range(least + 1, 6), 0):
            changed = tree.octets(node, lambda content: loose(node.tag, content, width))
            yield f"element {place} with a length of {width or 'no'} octets", changed


def with_mac_behind(message: bytes) -> bytes | None:
    """The message with the MAC over its header and body as they stand in its last octets, where the two can still be told."""
    try:
        _, content, _, _ = reference.element(message)
        _, _, header, rest = reference.element(content)
        _, _, body, _ = reference.element(rest)
        if len(message) < 32:
            return None
        return message[:-32] + handmade.mac(header, body, ROUNDS, SALT)
    except reference.BadForm:
        return None


SALT, ROUNDS = bytes(range(16)), 3


def whole_message() -> bytes:
    """A message with each field that is read and no certificates, so that the MAC covers all of it."""
    common = handmade.encoded(0x06, bytes.fromhex("550403")) + handmade.encoded(0x0C, b"Fleet CA")
    name = handmade.name(handmade.encoded(0x31, handmade.sequence(common)))
    named = handmade.pbmac1(handmade.derivation(
        handmade.octets(SALT), handmade.integer(ROUNDS), handmade.integer(32), handmade.HMAC_SHA256))
    fields = b"".join(handmade.field(number, handmade.octets(bytes([number]) * 16)) for number in range(2, 7))
    body = handmade.encoded(0xB5, handmade.sequence(handmade.algorithm("2b06010505070411")))
    return handmade.frame(handmade.header(named, sender=name, after=fields), body, rounds=ROUNDS, salt=SALT)


def compare_changed(runs: Runs) -> None:
    secret, message = handmade.SECRET, whole_message()
    if runs.answer(message, "verify", secret.hex())[0] != 0:
        runs.note("the message to be changed isn't verified", "whole", message)
    cut = [(f"cut off at {n}", message[:n], secret) for n in range(len(message))]
    bits = random.Random(1).sample(range(8 * len(message)), FLIPS)
    flips = [(f"bit {bit} flipped", flipped(message, bit), secret) for bit in bits]
    loose = [(title, octets, secret) for title, octets in loose_lengths(message)]
    for title, cases in (("cut off at each octet", cut), ("one bit flipped", flips), ("loose lengths", loose)):
        print(f"changed messages, {title}: {len(cases)}")
        show(runs.compare(cases, never_verified=True))
    own = [(title + ", own MAC", anew, secret) for title, octets, _ in flips + loose if (anew := with_mac_behind(octets))]
    print(f"changed messages with the MAC over what they are now: {len(own)}")
    show(runs.compare(own))


# Words

def compare_words(runs: Runs) -> None:
    message, secret = handmade.frame(handmade.header()), handmade.SECRET.hex()
    usage, good = (2, USAGE + "\n"), (0, reference.VERIFIED + "\n")
    bad = (1, reference.BAD_CHECK + "\n")
    cases = [
        ((), usage), (("frob",), usage), (("verify",), usage), (("verify", secret, "more"), usage), (("Verify", secret), usage),
        (("verify", ""), usage), (("verify", secret[:14]), usage), (("verify", secret + "a"), usage), (("verify", "g" * 16), usage),
        (("verify", "4a656665"), usage), (("verify", "00" * 65), usage), (("verify", "0x" + secret), usage), (("verify", " " + secret), usage),
        (("verify", secret), good), (("verify", secret.upper()), good), (("verify", secret + "00"), good),
        (("verify", "00" * 8), bad), (("verify", "ff" * 64), bad),
    ]
    for words, owed in cases:
        if (answer := runs.answer(message, *words)) != owed:
            runs.note(f"{answer} in the place of {owed}", f"words {words}", message)
        else:
            runs.agreements += 1
    print(f"words: {len(cases)}")


def show(counts: Counter) -> None:
    for answer, count in sorted(counts.items()):
        print(f"  {count:5} {answer}")


def main() -> int:
    runs = Runs(sys.argv[1])
    if len(sys.argv) > 2:
        others = read_others(Path(sys.argv[2]))
        compare_others(runs, others)
        compare_mutants(runs, others)
    edges = [(title, message, handmade.SECRET) for title, message in handmade.messages()]
    print(f"messages at the edges of the grammar: {len(edges)}")
    show(runs.compare(edges))
    compare_changed(runs)
    compare_words(runs)
    disagreements = runs.show_disagreements()
    print(f"agreements: {runs.agreements}, disagreements: {disagreements}")
    return 1 if disagreements else 0


if __name__ == "__main__":
    sys.exit(main())
