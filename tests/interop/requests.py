"""Parses the requests and certificates that the tests of message_cases and x509_cert speak of, with OpenSSL and Bouncy Castle.

The tests hold them whole and show that these very octets are written. The fields that are expected are written by
hand.

Prints how many agreed, and each disagreement; ends with status 1 where there is one. Skipped where a tool is missing.
"""

import os
import re
import shutil
import subprocess
import sys
import tempfile

import certs

HERE = os.path.dirname(os.path.abspath(__file__))
TESTS = os.path.join(HERE, "..", "..", "crates", "message_cases", "src", "request_vectors.rt")
JARS = [os.path.join(os.environ.get("BCJARS", "/usr/share/java"), name + ".jar") for name in ("bcpkix", "bcprov", "bcutil")]

HSS_LMS = "1.2.840.113549.1.9.16.3.17"

# Keys and signatures of the tests are octets that count up.
FIRST_KEY = bytes(range(0x40, 0x7C)).hex()
SECOND_KEY = bytes(range(0x80, 0xBC)).hex()
CERTIFICATE_SIGNATURE = bytes(range(0x20)).hex()

# What the tests ask for: keyUsage (digitalSignature, nonRepudiation), subjectAltName and extKeyUsage (clientAuth)
WISHED_EXTENSIONS = [
    "extension 2.5.29.15 critical 030206c0",
    "extension 2.5.29.17 301c8214" + b"device.fleet.example".hex() + "8704c0000201",
    "extension 2.5.29.37 300a06082b06010505070302",
]
DEVICE = ["subject C=DE,O=Fleet,CN=device-1", "keyAlgorithm " + HSS_LMS, "keyParameters none", "key " + FIRST_KEY]
SIGNED = ["algorithm " + HSS_LMS, "signature 0102", "writtenAgain the same"]

ROOT_IDENTIFIER = "12a3651dc2fd3a5bca14025c506f9fc440e3c7bf"
REPLY_IDENTIFIER = "6bc7eec34e35d260430896948686aec859312178"
AUTHORITY_EXTENSION = "extension 2.5.29.35 30168014" + ROOT_IDENTIFIER
REPLY_EXTENSION = "extension 2.5.29.14 0414" + REPLY_IDENTIFIER


def certificate_fields(serial, subject, last, key, extensions):
    return [
        "version 3",
        f"serial {serial}",
        "innerAlgorithm " + HSS_LMS,
        "issuer CN=Fleet CA",
        "notBefore 2023-11-14T22:13:20Z",
        "notAfter " + last,
        "subject " + subject,
        "keyAlgorithm " + HSS_LMS,
        "keyParameters none",
        "key " + key,
        *extensions,
        "algorithm " + HSS_LMS,
        "signature " + CERTIFICATE_SIGNATURE,
        "writtenAgain the same",
    ]


# What Bouncy Castle must find: the kind and the fields, in order
FIELDS = {
    "ROOT": ("certificate", certificate_fields(1, "CN=Fleet CA", "9999-12-31T23:59:59Z", FIRST_KEY, [
        "extension 2.5.29.14 0414" + ROOT_IDENTIFIER,
        "extension 2.5.29.19 critical 30030101ff",
        "extension 2.5.29.15 critical 03020204",
    ])),
    "REPLY": ("certificate", certificate_fields(2, "CN=Fleet CA reply", "9999-12-31T23:59:59Z", SECOND_KEY, [
        AUTHORITY_EXTENSION,
        REPLY_EXTENSION,
        "extension 2.5.29.15 critical 03020780",
    ])),
    "GRANTED": ("certificate", certificate_fields(128, "CN=device-1", "2024-11-13T22:13:19Z", SECOND_KEY, [
        AUTHORITY_EXTENSION,
        REPLY_EXTENSION,
        "extension 2.5.29.15 critical 03020780",
        "extension 2.5.29.17 30168214" + b"device.fleet.example".hex(),
    ])),
    "VOUCHED": ("messages", ["messages 1", "certReqId 0", *DEVICE, "proof raVerified", "writtenAgain the same"]),
    "UPDATE": ("messages", [
        "messages 1",
        "certReqId 0",
        *DEVICE,
        *WISHED_EXTENSIONS,
        "oldCertID 3 of 4 CN=Fleet CA",
        "proof signature",
        "input none",
        *SIGNED,
    ]),
    "ASKED": ("request", ["version 0", *DEVICE, "attributes 1", *WISHED_EXTENSIONS, *SIGNED]),
}

# What openssl req must print of the PKCS #10 request, besides the key, whose algorithm it doesn't know
REQUEST_LINES = [
    "Version: 1 (0x0)",
    "Subject: C = DE, O = Fleet, CN = device-1",
    "Public Key Algorithm: " + HSS_LMS,
    "Requested Extensions:",
    "X509v3 Key Usage: critical",
    "Digital Signature, Non Repudiation",
    "X509v3 Subject Alternative Name:",
    "DNS:device.fleet.example, IP Address:192.0.2.1",
    "X509v3 Extended Key Usage:",
    "TLS Web Client Authentication",
    "Signature Algorithm: " + HSS_LMS,
    "01:02",
    "subject=C = DE, O = Fleet, CN = device-1",
]

# What openssl asn1parse must print: the depth by the spaces in front, then the kind and the value
DEVICE_TREE = """
SEQUENCE
 SET
  SEQUENCE
   OBJECT :countryName
   PRINTABLESTRING :DE
 SET
  SEQUENCE
   OBJECT :organizationName
   UTF8STRING :Fleet
 SET
  SEQUENCE
   OBJECT :commonName
   UTF8STRING :device-1
"""
KEY_TREE = """
SEQUENCE
 OBJECT :1.2.840.113549.1.9.16.3.17
BIT STRING
"""
EXTENSIONS_TREE = """
SEQUENCE
 OBJECT :X509v3 Key Usage
 BOOLEAN :255
 OCTET STRING [HEX DUMP]:030206C0
SEQUENCE
 OBJECT :X509v3 Subject Alternative Name
 OCTET STRING [HEX DUMP]:301C82146465766963652E666C6565742E6578616D706C658704C0000201
SEQUENCE
 OBJECT :X509v3 Extended Key Usage
 OCTET STRING [HEX DUMP]:300A06082B06010505070302
"""
OLD_TREE = """
SEQUENCE
 OBJECT :id-regCtrl-oldCertID
 SEQUENCE
  cont [ 4 ]
   SEQUENCE
    SET
     SEQUENCE
      OBJECT :commonName
      UTF8STRING :Fleet CA
  INTEGER :03
"""


def under(depth, *trees):
    """The lines of trees, each a text or its lines, at a depth more."""
    rows = [tree.strip("\n").split("\n") if isinstance(tree, str) else tree for tree in trees]
    return [" " * depth + line for lines in rows for line in lines]


TREES = {
    "VOUCHED": under(0, "SEQUENCE", under(1, "SEQUENCE", under(
        1, "SEQUENCE", under(1, "INTEGER :00", "SEQUENCE", under(
            1, "cont [ 5 ]", under(1, DEVICE_TREE), "cont [ 6 ]", under(1, KEY_TREE))),
        "cont [ 0 ]"))),
    "UPDATE": under(0, "SEQUENCE", under(1, "SEQUENCE", under(
        1, "SEQUENCE", under(1, "INTEGER :00", "SEQUENCE", under(
            1, "cont [ 5 ]", under(1, DEVICE_TREE), "cont [ 6 ]", under(1, KEY_TREE), "cont [ 9 ]", under(1, EXTENSIONS_TREE)),
            "SEQUENCE", under(1, OLD_TREE)),
        "cont [ 1 ]", under(1, KEY_TREE)))),
    "ASKED": under(0, "SEQUENCE", under(
        1, "SEQUENCE", under(1, "INTEGER :00", DEVICE_TREE, "SEQUENCE", under(1, KEY_TREE), "cont [ 0 ]", under(
            1, "SEQUENCE", under(1, "OBJECT :Extension Request", "SET", under(1, "SEQUENCE", under(1, EXTENSIONS_TREE))))),
        KEY_TREE)),
}


def contents():
    """The octets of each name."""
    with open(certs.TESTS, encoding="utf-8") as file:
        text = file.read()
    octets = {name: certs.octets(text, name) for name in certs.EXPECTED}
    with open(TESTS, encoding="utf-8") as file:
        text = file.read()
    return octets | {name: certs.octets(text, name) for name in TREES}


def differences(wanted, found):
    """The lines that are missing and those that are too many; the order counts where the lines are the same."""
    missing = ["  missing: " + line for line in wanted if line not in found]
    more = ["  found: " + line for line in found if line not in wanted]
    return missing + more or ([] if wanted == found else ["  in another order or number: " + "; ".join(found)])


def openssl_lines(words, content):
    try:
        return certs.openssl(words, content).splitlines()
    except subprocess.CalledProcessError as fault:
        return ["refused: " + fault.stderr.decode().strip()]


def tree_of(content):
    """What asn1parse prints, with the depth as spaces."""
    lines = []
    for line in openssl_lines(["asn1parse", "-inform", "DER"], content):
        parts = re.fullmatch(r" *\d+:d=(\d+) +hl= *\d+ +l= *\d+ +(?:cons|prim): (.*)", line)
        lines.append(" " * int(parts.group(1)) + " ".join(parts.group(2).split()) if parts else line)
    return lines


def request_lines(content):
    """What openssl req prints, of the lines that are looked for."""
    lines = openssl_lines(["req", "-inform", "DER", "-noout", "-subject", "-text"], content)
    words = [line.strip() for line in lines]
    return [line for line in words if line in REQUEST_LINES or line.startswith("refused")]


def openssl_differences(octets):
    """Of each name and command, the differences."""
    for name, wanted in TREES.items():
        yield name + " (asn1parse)", differences(wanted, tree_of(octets[name]))
    yield "ASKED (req)", differences(REQUEST_LINES, request_lines(octets["ASKED"]))


def castle_lines(octets):
    """What Bouncy Castle finds, by name."""
    path = os.pathsep.join(JARS)
    told = "".join(f"{kind} {name} {octets[name].hex()}\n" for name, (kind, fields) in FIELDS.items())
    with tempfile.TemporaryDirectory() as folder:
        subprocess.run(["javac", "-cp", path, "-d", folder, os.path.join(HERE, "Requests.java")], check=True)
        command = ["java", "-cp", folder + os.pathsep + path, "Requests"]
        printed = subprocess.run(command, input=told, capture_output=True, check=True, text=True).stdout
    found = {name: [] for name in FIELDS}
    for line in printed.splitlines():
        name, field = line.split(" ", 1)
        found[name].append(field)
    return found


def castle_differences(octets):
    found = castle_lines(octets)
    for name, (kind, wanted) in FIELDS.items():
        yield f"{name} ({kind})", differences(wanted, found[name])


def report(title, each):
    """Prints how many agreed and each disagreement; whether all agreed."""
    each = list(each)
    for name, lines in each:
        if lines:
            print(title, name)
            print("\n".join(lines))
    agreed = sum(not lines for name, lines in each)
    print(f"{title}: {agreed} of {len(each)} agreed")
    return agreed == len(each)


def main():
    octets = contents()
    agreed = True
    if shutil.which("openssl") is None:
        print("skipped: OpenSSL (no openssl)")
    else:
        agreed = report("OpenSSL", openssl_differences(octets))
    if shutil.which("javac") is None or shutil.which("java") is None:
        print("skipped: Bouncy Castle (no JDK)")
    elif not all(map(os.path.exists, JARS)):
        print("skipped: Bouncy Castle (not there: " + ", ".join(jar for jar in JARS if not os.path.exists(jar)) + ")")
    else:
        agreed = report("Bouncy Castle", castle_differences(octets)) and agreed
    return 0 if agreed else 1


if __name__ == "__main__":
    sys.exit(main())
