"""Measures `cmpca serve` beside others. Words: the program, serve.c's program, a folder to write in, the number of enrolments.

Trees of height 10 with w = 8, 1,000 rounds of PBKDF2, 8 workers. Each enrolment is an ir of its own transaction and key, vouched for
by its sender; a stored reply answers one ir again. The bare server does as little as one can that keeps each change: it reads a
request, writes two records with a sync each, one request at a time, and answers with as many octets.

Where the time goes is told by the times that half of the replies stay below, at one connection: of the last tenth of the new enrolments;
of a request that is no message; of one with a wrong MAC, before all enrolments and after them, which differ by what a look over the history
takes; of a stored reply, which takes that look too; and of two syncs alone. The rest is the decision over the history and the change.
"""

import os
import shutil
import socket
import statistics
import subprocess
import sys
import time
from typing import NamedTuple

HERE = os.path.dirname(os.path.abspath(__file__))
sys.path.insert(0, os.path.join(HERE, "..", "tests", "interop"))
from cmp_messages import IR, Secret, asked, bits, common_name, message, oid, public, requests, sequence, subject  # noqa: E402

WORKERS = 8
LEAVES = 1_000
ROUNDS = 1_000
# For so many seconds nobody asks
IDLE = 5
SENDER = Secret("bench", b"the secret of bench", ROUNDS)
LIAR = Secret("bench", b"another secret", ROUNDS)
VOUCHED = bytes([0x80, 0])
SETTINGS = f"""name = "Fleet CA"
issue_tree = 6
issue_ots = 4
reply_tree = 6
reply_ots = 4
wait = 86400
skew = 300
rounds = {ROUNDS}
check_after = 60
days = 365
"""
CREDENTIALS = f'[[credential]]\nkind = "mac"\nreference = "bench"\nsecret = "{SENDER.secret.hex()}"\nrights = ["enrol", "vouch"]\n'


class Measure(NamedTuple):
    """How many a second, and milliseconds that half and 99 of 100 stay below, and half of the first and of the last tenth."""

    rate: float
    half: float
    most: float
    first: float
    last: float


class Authority(NamedTuple):
    """What was measured of an authority, and what part of a processor it takes while nobody asks."""

    new: Measure
    stored: Measure
    none: Measure
    wrong_before: Measure
    wrong: Measure
    idle: float


def enrolment(by):
    """An ir for a key of Ed25519 (RFC 8410), of which nobody has the private part."""
    info = sequence(sequence(oid("1.3.101.112")), bits(os.urandom(32)))
    body = requests(IR, (asked(subject(common_name("device")), public(info)), VOUCHED))
    return message(by, body, tid=os.urandom(16)).octets


def free_port():
    with socket.socket() as probe:
        probe.bind(("127.0.0.1", 0))
        return probe.getsockname()[1]


def listens(port):
    """Whether a process listens on this port, without a connection that would count."""
    for name in ("/proc/net/tcp", "/proc/net/tcp6"):
        if os.path.exists(name):
            with open(name, encoding="ascii") as table:
                if any(line.split()[1].endswith(f":{port:04X}") and line.split()[3] == "0A" for line in table.readlines()[1:]):
                    return True
    return False


class Running:
    """A server that runs while its block does."""

    def __init__(self, words, port):
        self.process = subprocess.Popen(words, stdin=subprocess.DEVNULL, stdout=subprocess.DEVNULL, stderr=subprocess.DEVNULL)
        until = time.monotonic() + 30
        while not listens(port):
            if self.process.poll() is not None or time.monotonic() > until:
                self.process.kill()
                sys.exit(f"{' '.join(words)} doesn't listen, status {self.process.wait()}")
            time.sleep(0.01)

    def __enter__(self):
        return self

    def __exit__(self, *_):
        self.process.kill()
        self.process.wait()

    def spent(self):
        """The seconds of the processor that it has taken."""
        with open(f"/proc/{self.process.pid}/stat", encoding="ascii") as file:
            ticks = file.read().rpartition(")")[2].split()[11:13]
        return sum(map(int, ticks)) / os.sysconf("SC_CLK_TCK")


class Bench:
    """The runs, and where they write."""

    def __init__(self, program, serve, folder, count):
        self.program, self.serve, self.folder, self.count = program, serve, folder, count

    def file(self, name):
        return os.path.join(self.folder, name)

    def load(self, port, connections, messages):
        with open(self.file("messages"), "wb") as file:
            for octets in messages:
                file.write(len(octets).to_bytes(4, "big") + octets)
        words = [self.serve, "load", str(port), str(connections), self.file("messages")]
        done = subprocess.run(words, capture_output=True, text=True, check=False)
        if done.returncode != 0:
            sys.exit(f"load: status {done.returncode}, {done.stdout}{done.stderr}")
        answered, seconds, *times = map(float, done.stdout.split())
        return Measure(answered / seconds, *times)

    def found(self):
        for name in ("journal", "orders"):
            if os.path.exists(self.file(name)):
                os.remove(self.file(name))
        with open(self.file("orders"), "wb"), open(self.file("key"), "wb") as key:
            key.write(os.urandom(96))
        words = [self.program, self.file("journal"), self.file("key")]
        for command, content in (("init", SETTINGS), ("enlist", CREDENTIALS)):
            subprocess.run([*words, command], input=content.encode(), check=True, capture_output=True)
        return words

    def authority(self, connections):
        """New enrolments, stored replies to one of them, messages with a wrong MAC, and requests that are no message."""
        port = free_port()
        words = [*self.found(), "serve", str(port), str(WORKERS), "1000000", self.file("orders")]
        with Running(words, port) as running:
            fresh, liars = [enrolment(SENDER) for _ in range(self.count)], [enrolment(LIAR) for _ in range(self.count)]
            # The first reply comes when the keys are grown.
            self.load(port, 1, [b"no message"])
            none, before, new, wrong, stored = (self.load(port, connections, messages) for messages in
                                                ([b"no message"] * self.count, liars, fresh, liars, fresh[:1] * self.count))
            spent = running.spent()
            time.sleep(IDLE)
            return Authority(new, stored, none, before, wrong, (running.spent() - spent) / IDLE)

    def bare(self, connections):
        port = free_port()
        with Running([self.serve, "bare", str(port), self.file("bare"), "4000"], port):
            return self.load(port, connections, [enrolment(SENDER) for _ in range(self.count)])

    def syncs(self):
        """Two writes and two syncs, one after the other: how many such pairs a second, and milliseconds that half of them stay below."""
        file = os.open(self.file("syncs"), os.O_CREAT | os.O_WRONLY | os.O_APPEND, 0o600)
        spans = []
        for _ in range(self.count):
            begun = time.monotonic()
            os.write(file, bytes(600))
            os.fdatasync(file)
            os.write(file, b"\0")
            os.fdatasync(file)
            spans.append(time.monotonic() - begun)
        os.close(file)
        return self.count / sum(spans), 1e3 * statistics.median(spans)

    def openssl(self):
        """The mock server and the client of `openssl cmp`, which keeps no journal and takes one connection at a time."""
        port, count = free_port(), min(self.count, 50)
        made = ["openssl", "req", "-x509", "-newkey", "ec", "-pkeyopt", "ec_paramgen_curve:P-256", "-nodes", "-subj", "/CN=mock",
                "-keyout", self.file("mock.key"), "-out", self.file("mock.pem")]
        if subprocess.run(made, capture_output=True, check=False).returncode:
            return None
        words = ["openssl", "cmp", "-config", "", "-port", str(port), "-srv_ref", "bench", "-srv_secret", "pass:bench",
                 "-rsp_cert", self.file("mock.pem"), "-grant_implicitconf", "-max_msgs", "0"]
        asks = ["openssl", "cmp", "-config", "", "-cmd", "ir", "-server", f"127.0.0.1:{port}", "-ref", "bench", "-secret", "pass:bench",
                "-newkey", self.file("mock.key"), "-subject", "/CN=device", "-implicit_confirm", "-unprotected_errors",
                "-certout", self.file("mock.out"), "-repeat", str(count), "-batch"]
        with Running(words, port):
            begun = time.monotonic()
            done = subprocess.run(asks, stdin=subprocess.DEVNULL, capture_output=True, check=False, timeout=120)
            return count / (time.monotonic() - begun) if done.returncode == 0 else None


def tell_rates(connections, bare, ours):
    for what, measure in (("bare server in C", bare), ("cmpca serve, new enrolments", ours.new), ("cmpca serve, stored replies", ours.stored)):
        print(f"{what + f', {connections}':<32} {measure.rate:9.1f} {measure.half:9.3f} {measure.most:9.3f} {measure.rate / bare.rate:9.2f}")


def tell_parts(ours, two_syncs):
    """Where the time of a new enrolment goes, as parts of the whole; and what is taken while nobody asks."""
    whole, none, look = ours.new.last, ours.none.half, ours.wrong.half - ours.wrong_before.half
    parts = [("HTTP, and octets that are none", none), ("the look over the history", look), ("the check up to the MAC", ours.wrong_before.half - none),
             ("two syncs alone", two_syncs), ("the reply", ours.stored.half - look - none)]
    parts.append(("the decision, and the rest", whole - sum(span for _, span in parts)))
    print("\nA new enrolment of the last tenth, at one connection (half of them, in ms, and parts of the whole)")
    for what, span in [("the whole", whole), *parts]:
        print(f"{what:<32} {span:9.3f} {span / whole:9.2f}")
    print(f"{'of the first tenth':<32} {ours.new.first:9.3f} {ours.new.first / whole:9.2f}")
    print(f"{'while nobody asks, of a processor':<42} {ours.idle:9.2f}")


def main():
    program, serve, folder, count = sys.argv[1:5]
    bench = Bench(program, serve, folder, min(int(count), LEAVES))
    print(f"{'what, connections':<32} {'a second':>9} {'half, ms':>9} {'99%, ms':>9} {'to bare':>9}")
    ours, syncs = {}, {}
    for connections in (1, 8):
        bare = bench.bare(connections)
        ours[connections] = bench.authority(connections)
        syncs[connections] = bench.syncs()
        tell_rates(connections, bare, ours[connections])
        rate, half = syncs[connections]
        print(f"{'two syncs alone':<32} {rate:9.1f} {half:9.3f} {'':9} {rate / bare.rate:9.2f}")
    mock = bench.openssl() if shutil.which("openssl") else None
    if mock:
        print(f"{'openssl cmp, its mock server':<32} {mock:9.1f} {'':9} {'':9} {mock / bare.rate:9.2f}")
    else:
        print("skipped: the mock server of openssl cmp")
    tell_parts(ours[1], syncs[1][1])


if __name__ == "__main__":
    main()
