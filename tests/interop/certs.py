"""Parses with OpenSSL the certificates that the tests of x509_cert say are written, and compares the fields.

Prints how many agreed, and each disagreement; ends with status 1 where there is one. Skipped where there is no OpenSSL.
"""

import os
import re
import shutil
import subprocess
import sys

TESTS = os.path.join(os.path.dirname(__file__), "..", "..", "crates", "x509_cert", "src", "tests.rt")
LAST = "9999-12-31 23:59:59Z"
EXPECTED = {
    "ROOT": ("01", "CN = Fleet CA", LAST, 3),
    "REPLY": ("02", "CN = Fleet CA reply", LAST, 3),
    "GRANTED": ("80", "CN = device-1", "2024-11-13 22:13:19Z", 4),
}


def octets(text, name):
    literal = re.search(r"const %s: &\[u8\] =\s*b\"((?:\\x[0-9a-f]{2})+)\"" % name, text).group(1)
    return bytes.fromhex(literal.replace("\\x", ""))


def openssl(words, content):
    return subprocess.run(["openssl", *words], input=content, capture_output=True, check=True).stdout.decode()


def main():
    if shutil.which("openssl") is None:
        print("skipped: no openssl")
        return 0
    with open(TESTS, encoding="utf-8") as file:
        text = file.read()
    agreed = 0
    for name, (serial, subject, last, extensions) in EXPECTED.items():
        content = octets(text, name)
        fields = openssl(["x509", "-inform", "DER", "-noout", "-serial", "-issuer", "-subject", "-dates", "-dateopt", "iso_8601"], content)
        wanted = [
            "serial=" + serial,
            "issuer=CN = Fleet CA",
            "subject=" + subject,
            "notBefore=2023-11-14 22:13:20Z",
            "notAfter=" + last,
        ]
        parsed = openssl(["asn1parse", "-inform", "DER"], content)
        names = len(re.findall(r"OBJECT +:(?:X509v3 |2\.5\.29\.)", parsed))
        if fields.splitlines() == wanted and names == extensions:
            agreed += 1
        else:
            print(name, fields, names)
    print(f"{agreed} of {len(EXPECTED)} certificates agreed")
    return 0 if agreed == len(EXPECTED) else 1


if __name__ == "__main__":
    sys.exit(main())
