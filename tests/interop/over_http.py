"""HTTP as devices speak it to `cmpca serve`: a run that serves, connections to it, and what comes over them."""

import resource
import signal
import socket
import subprocess
import time
from typing import NamedTuple

PATH = "/.well-known/cmp"
TYPE = "application/pkixcmp"
REASONS = {400: "Bad Request", 404: "Not Found", 405: "Method Not Allowed", 411: "Length Required", 413: "Content Too Large", 415: "Unsupported Media Type"}


def free_port():
    with socket.socket() as probe:
        probe.bind(("127.0.0.1", 0))
        return probe.getsockname()[1]


def listens(port):
    """Whether a process listens on this port of 127.0.0.1, without a connection that would count."""
    with open("/proc/net/tcp", encoding="ascii") as table:
        return any(line.split()[1] == f"0100007F:{port:04X}" and line.split()[3] == "0A" for line in table.readlines()[1:])


def wait_for(port, process):
    """Waits until there is a process that listens, or this one has ended."""
    until = time.monotonic() + 60
    while not listens(port) and process.poll() is None and time.monotonic() < until:
        time.sleep(0.01)


class Ended(NamedTuple):
    """How a run ended: its status, and what it wrote to standard output and to standard error."""

    status: int
    told: str
    heard: str


class Server:
    """A run of `serve`, and how many connections may still be made to it. It is ended with the block that it serves."""

    def __init__(self, run, workers, connections, port=None, orders="orders", journal="journal", most=None, out=subprocess.PIPE):
        self.port, self.left = port or free_port(), workers * connections
        words = words_of(run, self.port, workers, connections, orders, journal)

        def limit():
            resource.setrlimit(resource.RLIMIT_FSIZE, (most, most))

        # A write past the limit is to be an error, and not a signal.
        self.process = subprocess.Popen(words, stdin=subprocess.DEVNULL, stdout=out, stderr=subprocess.PIPE,
                                        preexec_fn=limit if most else None, restore_signals=not most)
        wait_for(self.port, self.process)

    def __enter__(self):
        return self

    def __exit__(self, *_):
        self.stop(signal.SIGKILL)

    def connect(self):
        self.left -= 1
        link = socket.create_connection(("127.0.0.1", self.port), timeout=20)
        link.setsockopt(socket.IPPROTO_TCP, socket.TCP_NODELAY, 1)
        return link

    def wait(self, seconds=60):
        told, heard = self.process.communicate(timeout=seconds)
        return Ended(self.process.returncode, (told or b"").decode(), heard.decode())

    def finish(self):
        """Makes the connections that are still to come, and gives how the run ended."""
        while self.left > 0:
            self.connect().close()
        return self.wait()

    def stop(self, by):
        """Ends the run where it still goes on."""
        if self.process.poll() is None:
            self.process.send_signal(by)
            self.process.communicate()


def words_of(run, port, workers, connections, orders, journal="journal", key="key"):
    return [run.program, run.file(journal), run.file(key), "serve", str(port), str(workers), str(connections), run.file(orders)]


def outcome(words):
    """How a run ended that serves nobody."""
    done = subprocess.run(words, stdin=subprocess.DEVNULL, capture_output=True, timeout=60, check=False)
    return Ended(done.returncode, done.stdout.decode(), done.stderr.decode())


class Answer(NamedTuple):
    """A reply over HTTP: its first line, its fields and its body."""

    line: str
    fields: list
    body: bytes

    def is_served(self, last):
        """Whether a request was served: by a CMP message, and with the end of the session where it is the last one."""
        wanted = [("Content-Type", TYPE), ("Content-Length", str(len(self.body)))]
        return (self.line, self.fields) == ("HTTP/1.1 200 OK", wanted + [("Connection", "close")] * last)

    def is_refused(self, status):
        wanted = [("Allow", "POST")] * (status == 405) + [("Content-Length", "0"), ("Connection", "close")]
        return self == Answer(f"HTTP/1.1 {status} {REASONS[status]}", wanted, b"")


NO_ANSWER = Answer("", [], b"")


class Link:
    """A connection, and what has come over it but isn't read yet."""

    def __init__(self, server):
        self.socket, self.octets = server.connect(), b""

    def __enter__(self):
        return self

    def __exit__(self, *_):
        self.socket.close()

    def send(self, octets):
        self.socket.sendall(octets)

    def more(self):
        piece = self.socket.recv(65_536)
        self.octets += piece
        return bool(piece)

    def reply(self):
        """The next reply, or none at the end."""
        while b"\r\n\r\n" not in self.octets:
            if not self.more():
                return NO_ANSWER
        head, _, rest = self.octets.partition(b"\r\n\r\n")
        line, *lines = head.decode("ascii").split("\r\n")
        fields = [tuple(field.split(": ", 1)) for field in lines]
        size = int(dict(fields).get("Content-Length", 0))
        while len(rest) < size and self.more():
            rest = self.octets.partition(b"\r\n\r\n")[2]
        self.octets = rest[size:]
        return Answer(line, fields, rest[:size])

    def has_ended(self):
        """Whether the other side has closed, and nothing more came."""
        try:
            return not self.more() and self.octets == b""
        except ConnectionResetError:
            return False


def post(body, version="1.1", fields=""):
    head = f"POST {PATH} HTTP/{version}\r\nHost: localhost\r\nContent-Type: {TYPE}\r\nContent-Length: {len(body)}\r\n{fields}\r\n"
    return head.encode() + body


class Kept:
    """Posts each message on one connection that is kept."""

    def __init__(self, run, server):
        self.run, self.link = run, Link(server)

    def ask(self, what, octets):
        self.link.send(post(octets))
        answer = self.link.reply()
        self.run.check(f"{what}: {answer.line} {answer.fields}", answer.is_served(last=False))
        return answer.body

    def close(self):
        self.link.socket.close()


class Single:
    """Posts each message by HTTP/1.0, on a connection of its own."""

    def __init__(self, run, server):
        self.run, self.server = run, server

    def ask(self, what, octets):
        with Link(self.server) as link:
            link.send(post(octets, version="1.0"))
            answer = link.reply()
            self.run.check(f"{what}, by HTTP/1.0: {answer.line} {answer.fields}", answer.is_served(last=True))
            self.run.check(f"{what}, by HTTP/1.0: the end", link.has_ended())
            return answer.body

    def close(self):
        pass
