"""Lets `cmpca serve` answer over HTTP, and compares each answer.

Words: the program, a folder to work in, and the class path of Bouncy Castle and TakeClient, empty where they aren't there. Prints how
many comparisons agreed, and each that didn't; ends with status 1 where there is one. The port is one that was free a moment before.
"""

import contextlib
import http.client
import io
import os
import re
import shutil
import signal
import socket
import ssl
import struct
import subprocess
import sys
import threading
import time
from concurrent.futures import ThreadPoolExecutor

import device
from cmp_messages import IR, Reply, certificate_parts, confirmation, confirmations, enrolment, message, serial_of, signed_by
from over_http import NO_ANSWER, PATH, TYPE, Kept, Link, Server, Single, free_port, outcome, post, wait_for, words_of
from take import CREDENTIALS, SETTINGS, Run

ORDERED = "202122232425262728292a2b2c2d2e2f"
WAITER = """
[[credential]]
kind = "mac"
reference = "dev-2"
secret = "7365637265742d32"
rights = ["enrol"]
hold = true
"""
# How the course of the two devices ends
SHOWN = f"""changes 10
issue 5 of 32
reply 1 of 32
cert 3 revoked 4 000102030405060708090a0b0c0d0e0f
cert 4 confirmed 101112131415161718191a1b1c1d1e1f
cert 5 confirmed {ORDERED}
"""
USAGE = "usage: cmpca verify SECRET | JOURNAL KEY COMMAND\n"
# After so many seconds a peer that says nothing is let go
PATIENCE = 60
SYSTEM_FAILURE = b"\x0c\x0dsystemFailure"
BAD_DATA_FORMAT = b"\x0c\x0dbadDataFormat"
CERT_REVOKED = b"\x0c\x0bcertRevoked"


def found(served, name, credentials=CREDENTIALS, wait=None):
    """A folder with an authority, its devices, and a file for orders; `wait` is how long a certificate may stay unconfirmed."""
    folder = os.path.join(served.folder, name)
    os.mkdir(folder)
    run = Run(served.program, served.path, folder)
    run.check = served.check
    with open(SETTINGS, encoding="ascii") as file:
        settings = file.read()
    if wait is not None:
        settings = re.sub(r"wait = \d+", f"wait = {wait}", settings)
    run.check(f"init in {name}", run.cmpca(["init"], settings.encode())[0] == 0)
    run.check(f"enlist in {name}", run.cmpca(["enlist"], credentials.encode())[0] == 0)
    with open(run.file("orders"), "wb"):
        pass
    return run


def summary(connections, changes, done=0, refused=0):
    return f"connections {connections}\nchanges {changes}\norders {done} done {refused} refused\n"


def compare(run, what, how, *wanted):
    run.check(f"{what}: {how}, not {wanted}", how == wanted)


def shows(run, line):
    """Waits until `show` has this line, beside the server that runs."""
    until = time.monotonic() + 20
    while time.monotonic() < until:
        if line in run.cmpca(["show"], b"")[1].decode().splitlines():
            return True
        time.sleep(0.02)
    return False


# ---- devices that enrol

def course(run, over):
    """Two devices in Python: enrolment, renewal, an order that comes while the authority serves, revocation."""
    folder = device.Folder(run.folder)

    def step(name):
        with contextlib.redirect_stdout(io.StringIO()) as lines:
            holds = device.STEPS[name](folder)
        run.check(f"step {name} of a device: {lines.getvalue()}", holds)

    def send(what, asked, reply):
        folder.write(reply, over.ask(what, folder.read(asked)))

    step("request")
    send("ir", "ir.der", "ip.der")
    send("ir again", "ir.der", "again.der")
    run.check("the same octets for the ir again", folder.read("ip.der") == folder.read("again.der"))
    step("confirm")
    send("certConf", "certconf.der", "pkiconf.der")
    step("done")
    step("renew")
    send("kur", "kur.der", "kup.der")
    step("renewed")
    step("ask")
    send("cr", "cr.der", "waiting.der")
    step("poll")
    send("pollReq", "pollreq.der", "pollrep.der")
    step("again")
    with open(run.file("orders"), "a", encoding="ascii") as orders:
        orders.write(f"release {ORDERED}\nfrob\ndeny {ORDERED}\n")
    run.check("an order that comes while it serves", shows(run, f"released {ORDERED}"))
    send("pollReq after the release", "again.der", "cp.der")
    step("fetch")
    step("revoke")
    send("rr", "rr.der", "rp.der")
    step("revoked")
    compare(run, "show, beside the server", run.cmpca(["show"], b""), 0, SHOWN.encode())


def whole_course(served, name, over, connections):
    """The course over one server, to its end: its summary, and what a mount finds."""
    run = found(served, name, CREDENTIALS + WAITER)
    with Server(run, 1, connections) as server:
        asker = over(run, server)
        try:
            course(run, asker)
        finally:
            asker.close()
        compare(run, f"{name}, the summary", server.finish(), 0, summary(connections, 10, 1, 2), "")
    compare(run, f"{name}, show after the end", run.cmpca(["show"], b""), 0, SHOWN.encode())


def kept(served):
    whole_course(served, "kept", Kept, 1)


def single(served):
    whole_course(served, "single", Single, 9)


# nginx before the authority, as docs/OPERATING.md says
NGINX = """daemon off;
pid nginx.pid;
events {{ worker_connections 64; }}
http {{
    access_log off;
    client_body_temp_path body; proxy_temp_path proxy; fastcgi_temp_path fastcgi; uwsgi_temp_path uwsgi; scgi_temp_path scgi;
    client_body_buffer_size 128k;
    server {{
        listen 127.0.0.1:{tls} ssl;
        ssl_certificate {folder}/tls.pem;
        ssl_certificate_key {folder}/tls.key;
        location /.well-known/cmp {{
            proxy_pass http://127.0.0.1:{port};
            proxy_http_version 1.0;
            client_max_body_size 128k;
        }}
    }}
}}
"""


class Proxied:
    """Posts each message over TLS to nginx, on one connection that is kept, and nginx to the authority, each on a connection of its own."""

    def __init__(self, run, server):
        self.run, self.server, tls = run, server, free_port()
        made = ["openssl", "req", "-x509", "-newkey", "ec", "-pkeyopt", "ec_paramgen_curve:P-256", "-nodes", "-subj", "/CN=localhost",
                "-keyout", run.file("tls.key"), "-out", run.file("tls.pem")]
        subprocess.run(made, capture_output=True, check=True)
        with open(run.file("nginx.conf"), "w", encoding="ascii") as file:
            file.write(NGINX.format(tls=tls, port=server.port, folder=run.folder))
        words = [nginx(), "-e", "stderr", "-p", run.folder, "-c", run.file("nginx.conf")]
        self.process = subprocess.Popen(words, stdin=subprocess.DEVNULL, stdout=subprocess.DEVNULL, stderr=subprocess.DEVNULL)
        wait_for(tls, self.process)
        trusted = ssl.create_default_context(cafile=run.file("tls.pem"))
        trusted.check_hostname = False
        self.link = http.client.HTTPSConnection("127.0.0.1", tls, timeout=20, context=trusted)

    def ask(self, what, octets):
        self.server.left -= 1
        self.link.request("POST", PATH, octets, {"Content-Type": TYPE})
        answer = self.link.getresponse()
        self.run.check(f"{what}, by nginx: {answer.status}", answer.status == 200 and answer.getheader("Content-Type") == TYPE)
        return answer.read()

    def close(self):
        self.process.terminate()
        self.process.wait()


def nginx():
    return shutil.which("nginx", path=os.environ["PATH"] + ":/usr/sbin")


def proxied(served):
    if nginx() and shutil.which("openssl"):
        whole_course(served, "proxied", Proxied, 9)
    else:
        print("skipped: a proxy with TLS (no nginx or openssl)")


def enrolled(run, server):
    """Enrols a device, and gives its certificate and whether each reply was as it should be."""
    key, tid = device.new_key(), os.urandom(16)
    asker = Kept(run, server)
    ip = Reply(asker.ask("ir among others", message(device.DEVICE_1, enrolment(IR, key), tid=tid).octets))
    certificate = ip.certificate()
    accepts = confirmations(confirmation(certificate, status=0))
    heard = Reply(asker.ask("certConf among others", message(device.DEVICE_1, accepts, tid=tid, received=ip.fields[0xA5]).octets))
    asker.close()
    holds = ip.holds_under(device.DEVICE_1) and signed_by(certificate, ip.root()) and heard.tag == 0xB3 and heard.holds_under(device.DEVICE_1)
    return certificate, holds


def together(served):
    """Eight devices at once, at four workers."""
    run = found(served, "together")
    with Server(run, 4, 2) as server:
        with ThreadPoolExecutor(8) as threads:
            granted = list(threads.map(lambda _: enrolled(run, server), range(8)))
        run.check("eight devices at once", all(holds for _, holds in granted))
        run.check("their serial numbers", sorted(serial_of(certificate) for certificate, _ in granted) == list(range(3, 11)))
        leaves = {certificate_parts(certificate)[2][4:8] for certificate, _ in granted}
        run.check(f"a leaf for each: {leaves}", len(leaves) == 8)
        compare(run, "eight devices, the summary", server.finish(), 0, summary(8, 18), "")


def lapsed(served):
    """A certificate that isn't confirmed in time is taken back while the authority serves, and its certConf comes too late."""
    run = found(served, "lapsed", wait=1)
    folder = device.Folder(run.folder)
    with Server(run, 1, 1) as server:
        over = Kept(run, server)
        with contextlib.redirect_stdout(io.StringIO()):
            device.begin(folder)
            folder.write("ip.der", over.ask("ir", folder.read("ir.der")))
            device.confirm(folder)
        run.check("a certificate that lapses", shows(run, "cert 3 revoked timeout 000102030405060708090a0b0c0d0e0f"))
        run.check("a certConf that comes too late", CERT_REVOKED in over.ask("certConf", folder.read("certconf.der")))
        over.close()
        compare(run, "a lapse, the summary", server.finish(), 0, summary(1, 4), "")


def bouncy(served):
    """Bouncy Castle's device, over a connection that is kept."""
    if not served.path:
        return
    run = found(served, "bouncy")
    run.client("request")
    with Server(run, 2, 1) as server:
        over = Kept(run, server)

        def send(what, asked, into):
            reply = over.ask(f"Bouncy Castle, {what}", run.read(asked))
            with open(run.file(into), "wb") as file:
                file.write(reply)
            return reply

        ip = send("ir", "ir.der", "ip.der")
        run.check("Bouncy Castle, the ir again: the same octets", send("ir again", "ir.der", "ip.der") == ip)
        run.client("wrong")
        send("certConf with another recipNonce", "certconf.der", "error.der")
        run.client("confirm")
        send("certConf", "certconf.der", "pkiconf.der")
        run.client("done")
        run.check("Bouncy Castle, the ir after the pkiconf: the same octets", send("ir at last", "ir.der", "again.der") == ip)
        over.close()
        compare(run, "Bouncy Castle, the summary", server.finish(), 0, summary(2, 4), "")


# ---- what is turned away

CMP = ["-H", f"Content-Type: {TYPE}"]
ONE = ["--data-binary", "x"]
# What curl asks for, and the status that is owed (RFC 9110, 15.5; RFC 9811, 3)
CURL = [
    ("GET", [], PATH, 405),
    ("HEAD", ["--head"], PATH, 405),
    ("PUT", ["-X", "PUT", *CMP, *ONE], PATH, 405),
    ("DELETE", ["-X", "DELETE"], PATH, 405),
    ("OPTIONS", ["-X", "OPTIONS"], PATH, 405),
    ("another path", [*CMP, *ONE], "/cmp", 404),
    ("another path and method", [], "/", 404),
    ("a path that goes on", [*CMP, *ONE], PATH + "x", 404),
    ("a longer path", [*CMP, *ONE], PATH + "/p/label", 200),
    ("a query", [*CMP, *ONE], PATH + "?q=1", 200),
    ("the type of a form", ONE, PATH, 415),
    ("another type", ["-H", f"Content-Type: {TYPE}x", *ONE], PATH, 415),
    ("no type", ["-H", "Content-Type:", *ONE], PATH, 415),
    ("the type in capitals, with a parameter", ["-H", f"Content-Type: {TYPE.upper()};a=b", *ONE], PATH, 200),
    ("chunks", [*CMP, "-H", "Transfer-Encoding: chunked", *ONE], PATH, 411),
    ("no length", ["-X", "POST", *CMP], PATH, 411),
    ("no octets", [*CMP, "--data-binary", ""], PATH, 200),
    ("a body at the limit", [*CMP, "-H", "Expect:", "--data-binary", "@limit"], PATH, 200),
    ("a body past the limit", [*CMP, "-H", "Expect:", "--data-binary", "@past"], PATH, 413),
    ("Expect", [*CMP, "-H", "Expect: 100-continue", "--data-binary", "@limit"], PATH, 200),
    ("Expect, past the limit", [*CMP, "-H", "Expect: 100-continue", "--data-binary", "@past"], PATH, 413),
    ("HTTP/1.0", ["--http1.0", *CMP, *ONE], PATH, 200),
]


def by_curl(run, server):
    for name, size in (("limit", 131_072), ("past", 131_073)):
        with open(run.file(name), "wb") as file:
            file.write(bytes(size))
    for what, words, path, status in CURL:
        server.left -= 1
        asked = ["curl", "-s", "-m", "20", "--noproxy", "*", "-o", "curl.out", "-w", "%{http_code}", *words, f"http://127.0.0.1:{server.port}{path}"]
        got = subprocess.run(asked, cwd=run.folder, capture_output=True, text=True, check=False)
        run.check(f"curl, {what}: {status}, not {got.stdout} ({got.returncode})", got.stdout == str(status))
        if status == 200:
            run.check(f"curl, {what}: badDataFormat", BAD_DATA_FORMAT in run.read("curl.out"))


def head(lines, body=b"", target=PATH, method="POST", version="HTTP/1.1", end="\r\n"):
    return end.join([f"{method} {target} {version}", *lines, "", ""]).encode("latin-1") + body


HOST = "Host: localhost"
TYPED = f"Content-Type: {TYPE}"
LENGTH = "Content-Length: 1"


def filled(size):
    """A head of so many octets."""
    rest = len(head([HOST, TYPED, "Content-Length: 0", "X: "]))
    return head([HOST, TYPED, "Content-Length: 0", "X: " + "x" * (size - rest)])


def fields(count):
    return head([HOST, TYPED, "Content-Length: 0"] + [f"X-{number}: x" for number in range(count - 3)])


# What is sent by hand, and the status that is owed, or none where nothing is answered
BY_HAND = [
    ("two lengths that differ", head([HOST, TYPED, LENGTH, "Content-Length: 2"], b"x"), 400),
    ("two lengths that are one", head([HOST, TYPED, LENGTH, LENGTH], b"x"), 400),
    ("a length and then chunks", head([HOST, TYPED, LENGTH, "Transfer-Encoding: chunked"], b"1\r\nx\r\n0\r\n\r\n"), 411),
    ("chunks and then a length", head([HOST, TYPED, "Transfer-Encoding: chunked", LENGTH], b"1\r\nx\r\n0\r\n\r\n"), 411),
    ("a length beside identity", head([HOST, TYPED, LENGTH, "Transfer-Encoding: identity"], b"x"), 411),
    ("a length with a sign", head([HOST, TYPED, "Content-Length: +1"], b"x"), 400),
    ("a length in hexadecimal", head([HOST, TYPED, "Content-Length: 0x1"], b"x"), 400),
    ("a list of lengths", head([HOST, TYPED, "Content-Length: 1, 1"], b"x"), 400),
    ("an empty length", head([HOST, TYPED, "Content-Length:"]), 400),
    ("a length of 11 digits", head([HOST, TYPED, "Content-Length: 00000000001"], b"x"), 400),
    ("a length of 10 digits", head([HOST, TYPED, "Content-Length: 0000000001"], b"x"), 200),
    ("lines that end with LF alone", head([HOST, TYPED, LENGTH], b"x", end="\n"), 200),
    ("a folded line", head([HOST, TYPED, LENGTH, "X: a", " b"], b"x"), 400),
    ("a folded length", head([HOST, TYPED, "Content-Length:", " 1"], b"x"), 400),
    ("a blank before the colon", head([HOST, TYPED, "Content-Length : 1"], b"x"), 400),
    ("NUL in a value", head([HOST, TYPED, LENGTH, "X: \0"], b"x"), 400),
    ("NUL in a name", head([HOST, TYPED, LENGTH, "X\0: x"], b"x"), 400),
    ("NUL in the target", head([HOST, TYPED, LENGTH], b"x", target=PATH + "\0"), 400),
    ("NUL in the method", head([HOST, TYPED, LENGTH], b"x", method="PO\0ST"), 400),
    ("CR alone in a value", head([HOST, TYPED, LENGTH, "X: a\rb"], b"x"), 400),
    ("HTTP/2.0", head([HOST, TYPED, LENGTH], b"x", version="HTTP/2.0"), 400),
    ("the absolute form", head([HOST, TYPED, LENGTH], b"x", target="http://localhost" + PATH), 404),
    ("a method in lower case", head([HOST, TYPED, LENGTH], b"x", method="post"), 405),
    ("names in lower case", head([HOST, TYPED.lower(), LENGTH.lower()], b"x"), 200),
    ("no Host", head([TYPED, LENGTH], b"x"), 200),
    ("octets of TLS", b"\x16\x03\x01\x02\x00\x01\x00\x01\xfc\x03\x03", 400),
    ("32 fields", fields(32), 200),
    ("33 fields", fields(33), 400),
    ("a head of 8,192 octets", filled(8_192), 200),
    ("a head of 8,193 octets", filled(8_193), 400),
    ("a head that doesn't end", b"POST " + b"/" * 20_000, 400),
    ("a head cut off", head([HOST, TYPED])[:-3], 400),
    ("a body cut off", head([HOST, TYPED, "Content-Length: 5"], b"xxxx"), 400),
    ("the end at once", b"", None),
]


def by_hand(run, server):
    for what, octets, status in BY_HAND:
        with Link(server) as link:
            link.send(octets)
            link.socket.shutdown(socket.SHUT_WR)
            answer = link.reply()
            if status == 200:
                holds = answer.is_served(last=False) and BAD_DATA_FORMAT in answer.body
            else:
                holds = answer == NO_ANSWER if status is None else answer.is_refused(status)
            run.check(f"by hand, {what}: {status}, not {answer}", holds)
            run.check(f"by hand, {what}: the end", link.has_ended())


def streams(run, server):
    """A request in pieces, one while the process is stopped and continued, two in one, one behind a last one, and 1,001 of them."""
    no_message = post(b"no message")
    with Link(server) as link:
        for octet in no_message:
            link.send(bytes([octet]))
        run.check("in pieces of one octet", link.reply().is_served(last=False))
        link.send(no_message[:20])
        for by in (signal.SIGSTOP, signal.SIGCONT) * 3:
            server.process.send_signal(by)
            time.sleep(0.05)
        link.send(no_message[20:])
        run.check("while the process is stopped and continued", link.reply().is_served(last=False))
        link.send(no_message * 2)
        run.check("two requests at once", [link.reply().is_served(last=False) for _ in range(2)] == [True] * 2)
        link.send(post(b"no message", fields="Connection: Close\r\n") + no_message)
        run.check("the last one, as it asks for it", link.reply().is_served(last=True))
        run.check("nothing behind the last one", link.has_ended())
    with Link(server) as link:
        link.send(no_message + head([HOST, TYPED, LENGTH], b"x", method="GET") + no_message)
        run.check("one before a refusal", link.reply().is_served(last=False))
        run.check("a refusal", link.reply().is_refused(405))
        run.check("nothing behind a refusal", link.has_ended())
    with Link(server) as link:
        asks = threading.Thread(target=lambda: link.send(no_message * 1_001), daemon=True)
        asks.start()
        lasts = [link.reply().is_served(last=number == 1_000) for number in range(1, 1_001)]
        run.check(f"1,000 requests on a connection: {lasts.count(True)}", lasts == [True] * 1_000)
        run.check("no request behind the thousandth", link.has_ended())


def gone(run, server):
    """Peers that go without reading what they asked for: by a reset, and in the midst of many requests."""
    reset = struct.pack("ii", 1, 0)
    for count in (1, 1, 1, 100, 200):
        link = server.connect()
        link.sendall(post(b"no message") * count)
        link.setsockopt(socket.SOL_SOCKET, socket.SO_LINGER, reset)
        link.close()
    with Link(server) as link:
        link.send(post(b"no message"))
        run.check("served after peers that were gone", link.reply().is_served(last=False))
    run.check("it still runs", server.process.poll() is None)


def slow(run, server):
    """A client that sends an octet a second holds one worker, and the other one serves."""
    asked = post(b"x")
    with Link(server) as link:
        begun, answered = time.monotonic(), 0
        for octet in asked[:5]:
            link.send(bytes([octet]))
            with Link(server) as other:
                other.send(post(b"x", version="1.0"))
                answered += other.reply().is_served(last=True)
            time.sleep(1)
        run.check(f"5 served beside a slow one, not {answered}", answered == 5 and time.monotonic() - begun < 15)
        link.send(asked[5:])
        run.check("the slow one is served", link.reply().is_served(last=False))


def turned_away(served):
    run = found(served, "away")
    before = run.read("journal")
    with Server(run, 2, 60) as server:
        if shutil.which("curl"):
            by_curl(run, server)
        else:
            print("skipped: requests by curl (no curl)")
        by_hand(run, server)
        streams(run, server)
        gone(run, server)
        slow(run, server)
        compare(run, "nothing is changed", server.finish(), 0, summary(120, 2), "")
    run.check("the journal is as before", run.read("journal") == before)


class Silent:
    """A peer that says nothing, at the one worker of a server of its own, while the other parts go on."""

    def __init__(self, served):
        self.run = found(served, "silent")
        self.server = Server(self.run, 1, 1)
        self.link, self.begun = Link(self.server), time.monotonic()
        self.how, self.held = None, 0.0
        self.watch = threading.Thread(target=self.wait, daemon=True)
        self.watch.start()

    def wait(self):
        self.how = self.server.wait(seconds=2 * PATIENCE)
        self.held = time.monotonic() - self.begun

    def end(self):
        self.watch.join()
        with self.server, self.link:
            compare(self.run, "a silent peer, the summary", self.how, 0, summary(1, 2), "")
            self.run.check(f"a silent peer is let go after a minute, not {self.held:.1f} seconds", PATIENCE - 1 <= self.held <= PATIENCE + 15)
            self.run.check("a silent peer's end", self.link.has_ended())


# ---- stops, faults and words

def stopped(served):
    """A stop in mid-session by each signal, and a start on the same port at once, which gives the stored reply."""
    run = found(served, "stopped")
    port, ir = free_port(), device.request()
    ip = None
    for by in (signal.SIGKILL, signal.SIGTERM, signal.SIGKILL):
        with Server(run, 1, 1, port=port) as server, Link(server) as link:
            link.send(post(ir))
            answer = link.reply()
            run.check(f"the same reply after a stop, on the same port: {answer.line}", answer.is_served(last=False) and ip in (None, answer.body))
            ip = answer.body
            server.stop(by)
            run.check(f"stopped by {by.name}: {server.process.returncode}", server.process.returncode == -by)
    with Server(run, 1, 1, port=port) as server:
        compare(run, "after the stops, the summary", server.finish(), 0, summary(1, 3), "")


def failing(served):
    """A disk that fails in a session: the message gets systemFailure, the run goes on, and ends with 5; with room it is done, once."""
    run = found(served, "failing")
    ir = device.request()
    with Server(run, 2, 1, most=len(run.read("journal")) + 100) as server, Link(server) as link:
        for which in ("first", "second"):
            link.send(post(ir))
            answer = link.reply()
            run.check(f"on a full disk, the {which} time: {answer}", answer.is_served(last=False) and SYSTEM_FAILURE in answer.body)
        link.socket.close()
        compare(run, "on a full disk", server.finish(), 5, "disk fault\n", f"cmpca: {run.file('journal')}: File too large\n")
    with Server(run, 1, 1) as server, Link(server) as link:
        link.send(post(ir))
        answer = link.reply()
        run.check("the same message, with room", answer.is_served(last=False) and Reply(answer.body).status() == 0)
        link.socket.close()
        compare(run, "with room, the summary", server.finish(), 0, summary(1, 3), "")
    with open("/dev/full", "wb") as full, Server(run, 1, 1, out=full) as server:
        compare(run, "an output that fails", server.finish(), 4, "", "cmpca: standard output: No space left on device\n")


def refused(served):
    """What is refused before it serves, and what is told of it."""
    run = found(served, "refused")
    orders = run.file("orders")
    for words in (["0", "1", "1"], ["65536", "1", "1"], ["080", "1", "1"], ["8080", "0", "1"], ["8080", "17", "1"], ["8080", "1", "0"],
                  ["8080", "1", "1000001"], ["8080", "1", "+1"], ["8080", "1", " 1"], ["8080", "1", ""], ["8080", "1"], ["8080", "1", "1", "1"]):
        how = outcome([run.program, run.file("journal"), run.file("key"), "serve", *words, orders])
        run.check(f"serve {words}: {how}", how[:2] == (2, USAGE) and "serve PORT WORKERS CONNECTIONS ORDERS" in how.heard)
    port = free_port()
    with open(run.file("short"), "wb") as key:
        key.write(run.read("key")[:95])
    compare(run, "a key file of 95 octets", outcome(words_of(run, port, 1, 1, "orders", key="short"))[:2], 10, "bad key file\n")
    compare(run, "no key file", outcome(words_of(run, port, 1, 1, "orders", key="none")), 3, "read fault\n", f"cmpca: {run.file('none')}: No such file or directory\n")
    with open(run.file("other"), "wb") as key:
        key.write(os.urandom(96))
    how = outcome(words_of(run, port, 1, 1, "orders", key="other"))
    run.check(f"another key file: {how}", how.status == 9 and how.told.startswith("key mismatch\nfile "))
    compare(run, "no journal", outcome(words_of(run, port, 1, 1, "orders", journal="none"))[:2], 8, "not founded\n")
    whole = run.read("journal")[:-1]
    with open(run.file("damaged"), "wb") as journal:
        journal.write(whole + b"\1\xff\xff\xff\xff")
    compare(run, "a damaged journal", outcome(words_of(run, port, 1, 1, "orders", journal="damaged"))[:2], 7, f"damaged at {len(whole)}\n")
    with socket.socket() as taken:
        taken.bind(("127.0.0.1", 0))
        taken.listen()
        port = taken.getsockname()[1]
        how = outcome(words_of(run, port, 3, 1, "orders"))
        lines = how.heard.splitlines()
        holds = how[:2] == (3, "read fault\n") and lines[0] == f"cmpca: port {port}: Address already in use"
        run.check(f"a port that is taken: {how}", holds and all(f"port {port}" in line for line in lines))
    with Server(run, 1, 1, orders="nowhere") as server:
        line = f"cmpca: {run.file('nowhere')}: No such file or directory\n"
        compare(run, "no orders file", server.finish(), 3, "read fault\n", line)
    with Server(run, 1, 1) as server:
        in_use = f"cmpca: {run.file('journal')}: in use by another process\n"
        compare(run, "a second one over a journal", outcome(words_of(run, free_port(), 1, 1, "orders")), 5, "disk fault\n", in_use)
        compare(run, "enlist beside it", run.cmpca(["enlist"], CREDENTIALS.encode()), 5, b"disk fault\n")
        compare(run, "the first one ends", server.finish(), 0, summary(1, 2), "")


def main():
    program, folder, path = sys.argv[1:4]
    served = Run(program, path, folder)
    silent = Silent(served)
    for part in (kept, single, proxied, together, lapsed, bouncy, turned_away, stopped, failing, refused):
        try:
            part(served)
        except (OSError, ValueError, LookupError, AttributeError, subprocess.SubprocessError) as error:
            served.check(f"{part.__name__} came to its end: {error!r}", False)
    silent.end()
    for what in served.differs:
        print(f"differs: {what}")
    print(f"{served.agreed} of {served.agreed + len(served.differs)} comparisons agreed")
    return 1 if served.differs else 0


if __name__ == "__main__":
    sys.exit(main())
