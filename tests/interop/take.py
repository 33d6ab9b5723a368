"""Enrols a device with `cmpca` over files, with messages that Bouncy Castle makes and reads, and compares each answer.

Words: the program, the class path of Bouncy Castle and TakeClient, and a folder to work in. Prints how many comparisons agreed,
and each that didn't; ends with status 1 where there is one. OpenSSL parses the certificates where it is there.
"""

import os
import resource
import shutil
import subprocess
import sys

from cmp_messages import signed_by

SETTINGS = os.path.join(os.path.dirname(os.path.abspath(__file__)), "..", "..", "examples", "settings.toml")
CREDENTIALS = """[[credential]]
kind = "mac"
reference = "dev-1"
secret = "7365637265742d31"
rights = ["enrol"]
"""
LINES = """changes 4
issue 3 of 32
reply 0 of 32
cert 3 confirmed 000102030405060708090a0b0c0d0e0f
"""


class Run:
    """A folder with a journal and a key file, and what was compared."""

    def __init__(self, program, path, folder):
        self.program, self.path, self.folder = program, path, folder
        self.agreed, self.differs = 0, []
        with open(self.file("key"), "wb") as key:
            key.write(os.urandom(96))

    def file(self, name):
        return os.path.join(self.folder, name)

    def read(self, name):
        with open(self.file(name), "rb") as file:
            return file.read()

    def check(self, what, holds):
        if holds:
            self.agreed += 1
        else:
            self.differs.append(what)

    def cmpca(self, asked, content, key="key", most=None, journal="journal"):
        """Runs a command on the journal; `most` is the most octets that a file may get."""

        def limit():
            resource.setrlimit(resource.RLIMIT_FSIZE, (most, most))

        words = [self.program, self.file(journal), self.file(key), *asked]
        # A write past the limit is to be an error, and not a signal.
        ended = subprocess.run(words, input=content, capture_output=True, preexec_fn=limit if most else None, restore_signals=not most)
        return ended.returncode, ended.stdout

    def take(self, what, message, status, into, most=None):
        """Takes a message of a file, and writes the reply to another."""
        got, reply = self.cmpca(["take"], self.read(message), most=most)
        self.check(f"{what}: status {status}, not {got} with {reply[:60]!r}", got == status)
        with open(self.file(into), "wb") as file:
            file.write(reply)
        return reply

    def client(self, step):
        """Lets Bouncy Castle read the last reply and write the next message."""
        done = subprocess.run(["java", "-cp", self.path, "TakeClient", step, self.folder], capture_output=True, text=True)
        for line in done.stdout.splitlines():
            word, what = line.split(" ", 1)
            self.check(what, word == "agreed")
        self.check(f"{step}: {done.stderr}", done.returncode == 0)


def enrol(run):
    """The course of an enrolment, with a disk that fails once and a message with another recipNonce."""
    with open(SETTINGS, "rb") as settings:
        status, text = run.cmpca(["init"], settings.read())
    identity = text.decode().removeprefix("founded ").strip()
    run.check("init: founded and an identity", status == 0 and len(identity) == 192)
    run.check("enlist", run.cmpca(["enlist"], CREDENTIALS.encode()) == (0, b"enlisted 1\n"))
    run.client("request")

    run.take("ir on a full disk", "ir.der", 5, "failure.der", most=len(run.read("journal")) + 100)
    run.client("stopped")
    ip = run.take("ir", "ir.der", 0, "ip.der")
    run.check("the ir again: the same octets", run.take("ir again", "ir.der", 0, "ip.der") == ip)
    run.client("wrong")
    run.take("certConf with another recipNonce", "certconf.der", 1, "error.der")
    run.client("confirm")
    run.take("certConf", "certconf.der", 0, "pkiconf.der")
    run.client("done")
    run.check("the ir after the pkiconf: the same octets", run.take("ir at last", "ir.der", 0, "again.der") == ip)
    run.check("show", run.cmpca(["show"], b"") == (0, LINES.encode()))
    return identity


def refuse(run, identity):
    """What is answered where the key file, the journal or the message isn't the right one."""
    ir = run.read("ir.der")
    with open(run.file("short"), "wb") as key:
        key.write(run.read("key")[:95])
    run.check("a key file of 95 octets", run.cmpca(["take"], ir, key="short") == (10, b"bad key file\n"))
    with open(run.file("other"), "wb") as key:
        key.write(os.urandom(96))
    status, text = run.cmpca(["take"], ir, key="other")
    lines = text.decode().splitlines()
    run.check("another key file", status == 9 and lines[0] == "key mismatch" and len(lines) == 3)
    run.check("both identities", lines[1][:5] == "file " and len(lines[1]) == 197 and lines[2] == "journal " + identity)
    run.check("no journal", run.cmpca(["take"], ir, journal="none") == (8, b"not founded\n"))
    for what, message in (("nothing", b""), ("an ir cut off", ir[:-1]), ("an ir and one octet more", ir + b"\0"), ("131,073 octets", bytes(131_073))):
        status, reply = run.cmpca(["take"], message)
        run.check(f"{what}: badDataFormat", status == 1 and b"\x0c\x0dbadDataFormat" in reply)
    run.check("show, unchanged", run.cmpca(["show"], b"") == (0, LINES.encode()))


def certificates(run):
    """The certificates, by Python's hashlib and by OpenSSL."""
    root, certificate = run.read("root.der"), run.read("certificate.der")
    run.check("the root's signature, by hashlib", signed_by(root, root))
    run.check("the certificate's signature, by hashlib", signed_by(certificate, root))
    run.check("a certificate with a bit changed, by hashlib", not signed_by(certificate[:-1] + bytes([certificate[-1] ^ 1]), root))
    if shutil.which("openssl") is None:
        print("skipped: certificates by OpenSSL (no openssl)")
        return
    text = subprocess.run(["openssl", "x509", "-inform", "DER", "-noout", "-text"], input=certificate, capture_output=True, check=True).stdout.decode()
    for part in ("Serial Number: 3 (0x3)", "Issuer: CN = Fleet CA", "Subject: CN = device-1", "1.2.840.113549.1.9.16.3.17",
                 "X509v3 Authority Key Identifier", "X509v3 Subject Key Identifier", "X509v3 Key Usage: critical", "Digital Signature"):
        run.check(f"OpenSSL: {part}", part in text)


def main():
    run = Run(*sys.argv[1:4])
    refuse(run, enrol(run))
    certificates(run)
    for what in run.differs:
        print(f"differs: {what}")
    print(f"{run.agreed} of {run.agreed + len(run.differs)} comparisons agreed")
    return 1 if run.differs else 0


if __name__ == "__main__":
    sys.exit(main())
