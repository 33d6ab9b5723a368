"""A folder with journals of one program, whose runs are watched: each ends within its time, with a status that is documented."""

import os
import subprocess
import sys

HERE = os.path.dirname(os.path.abspath(__file__))
sys.path.insert(0, os.path.join(HERE, "..", "interop"))
from cmp_messages import Reply, first  # noqa: E402
from course import payloads  # noqa: E402
from take import Run  # noqa: E402

DOCUMENTED = range(11)
SECONDS = 300
GRANT, ERROR = 4, 0xB7
GRANTED = 0xA1, 0xA3, 0xA8


class Stand(Run):
    """What a run of the program is, beside what was compared."""

    def __init__(self, program, folder):
        super().__init__(os.path.abspath(program), "", folder)

    def cmpca(self, asked, content, key="key", most=None, journal="journal"):
        """Runs a command; the status is None where it doesn't end in time, and what it writes then is nothing."""
        words = [self.program, self.file(journal), self.file(key), *asked]
        if most is not None:
            # A write past the limit is to be an error, and not a signal.
            words = ["prlimit", f"--fsize={most}", *words]
        try:
            ended = subprocess.run(words, input=content, capture_output=True, timeout=SECONDS, restore_signals=most is None)
        except subprocess.TimeoutExpired:
            return None, b""
        return ended.returncode, ended.stdout

    def write(self, name, octets):
        with open(self.file(name), "wb") as file:
            file.write(octets)

    def end(self):
        """Prints what agreed and what didn't, and gives the status of the script."""
        for what in self.differs[:20]:
            print(f"differs: {what}")
        print(f"{self.agreed} of {self.agreed + len(self.differs)} agreed")
        return 1 if self.differs else 0


def is_whole(octets):
    """Whether octets are one whole element: a reply that was received in full."""
    try:
        return len(octets) > 1 and first(octets)[2:] == (octets, b"") and len(Reply(octets).protected) > 0
    except (IndexError, ValueError, KeyError):
        return False


def granted_tids(journal):
    """The transactionIDs of the certificates in a journal."""
    grants = [payload for payload in payloads(journal) if payload[0] == GRANT]
    return [payload[2 : 2 + payload[1]] for payload in grants]
