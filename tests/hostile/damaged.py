"""A journal of each kind of damage, through `show` and `take`.

Words: the program, a folder to work in, and each how many journals one is looked at. A journal is cut off at each octet; each
gate, each octet of a length and of the magic is another in each of its bits, and each octet of a change in one. `reading` walks the octets as the format
says: octet 1, the magic, and for each change an octet 1 and its length. What is no journal is told so, what is damaged is told with its
place, by both commands alike, and stays as it was; what is none of that is shown, and the message is answered.
"""

import os
import sys
from concurrent.futures import ThreadPoolExecutor

from stand import Stand, is_whole, payloads
from cmp_messages import IR, Key, Reply, Secret, confirmation, confirmations, enrolment, message
from course import SETTINGS, credential

MAGIC = b"CMPLOG1"
NOT_FOUNDED = 8, b"not founded\n"


def reading(octets):
    """What is owed to these octets by the form of the log alone: None where it recovers."""
    if len(octets) < 9 or octets[0] != 1:
        return NOT_FOUNDED
    if octets[1:8] != MAGIC:
        return 7, b"damaged at 1\n"
    at = 8
    while octets[at] == 1:
        after = at + 5 + int.from_bytes(octets[at + 1 : at + 5], "big")
        if len(octets) < at + 5 or len(octets) <= after:
            return 7, b"damaged at %d\n" % at
        at = after
    return None


def founded(run):
    """A journal with a certificate that was confirmed, and a message that it would answer."""
    device = Secret("dev-1", b"the secret of dev-1", 3)
    run.check("init", run.cmpca(["init"], SETTINGS.encode())[0] == 0)
    run.check("enlist", run.cmpca(["enlist"], credential(device, ["enrol"]).encode()) == (0, b"enlisted 1\n"))
    status, ip = run.cmpca(["take"], message(device, enrolment(IR, Key("device-1")), tid=b"one").octets)
    run.check(f"ir: {status}", status == 0)
    reply = Reply(ip)
    accepts = confirmations(confirmation(reply.certificate(), status=0))
    status, _ = run.cmpca(["take"], message(device, accepts, tid=b"one", received=reply.fields[0xA5]).octets)
    run.check(f"certConf: {status}", status == 0)
    return message(device, enrolment(IR, Key("device-2")), tid=b"two").octets


def spoiled(octets):
    """Titles and journals."""
    for size in range(len(octets)):
        yield f"cut off at {size}", octets[:size]
    frame, at = [*range(8)], 8
    for payload in payloads(octets):
        frame += range(at, at + 5)
        at += 5 + len(payload)
    frame += [at]
    for place in range(len(octets)):
        for bit in range(8) if place in frame else (place % 8,):
            yield f"bit {bit} of octet {place}", octets[:place] + bytes([octets[place] ^ 1 << bit]) + octets[place + 1 :]
    for place in frame:
        yield f"octet {place} left out", octets[:place] + octets[place + 1 :]
        yield f"octet {place} twice", octets[: place + 1] + octets[place:]
    yield "octets behind the closed gate", octets + os.urandom(100)
    yield "an open gate with nothing behind it", octets[:-1] + b"\1"
    yield "the first change twice", octets[:-1] + b"\1" + len(payloads(octets)[0]).to_bytes(4, "big") + payloads(octets)[0] + b"\0"
    yield "nothing", b""
    yield "zeros", bytes(len(octets))


def looked_at(run, number, title, octets, sent):
    """Shows such a journal, and takes a message over it."""
    owed, spoiled = reading(octets), f"spoiled-{number}"
    run.write(spoiled, octets)
    shown = run.cmpca(["show"], b"", journal=spoiled)
    run.check(f"{title}: show leaves it", run.read(spoiled) == octets)
    if owed is not None:
        run.check(f"{title}: show tells {shown}, not {owed}", shown == owed)
    else:
        run.check(f"{title}: show tells {shown}", shown[0] == 0 or shown[0] == 7 and shown[1].startswith(b"damaged at "))
    status, reply = run.cmpca(["take"], sent, journal=spoiled)
    if shown[0] != 0:
        run.check(f"{title}: take tells {status, reply[:60]}, show {shown}", (status, reply) == shown)
        run.check(f"{title}: take leaves it", run.read(spoiled) == octets)
    else:
        # Another key, another time or another secret may stand there now: then the message is refused, or the key file is another.
        run.check(f"{title}: take ends with {status}", status == 9 or status in (0, 1) and is_whole(reply))
        run.check(f"{title}: take keeps what was there", payloads(run.read(spoiled))[: len(payloads(octets))] == payloads(octets))


def main():
    run, every = Stand(*sys.argv[1:3]), int(sys.argv[3])
    sent = founded(run)
    journals = list(enumerate(spoiled(run.read("journal"))))[::every]

    def look(one):
        number, (title, octets) = one
        looked_at(run, number, title, octets, sent)
        os.remove(run.file(f"spoiled-{number}"))

    with ThreadPoolExecutor(os.cpu_count()) as pool:
        list(pool.map(look, journals))
    print(f"{len(journals)} journals")
    return run.end()


if __name__ == "__main__":
    sys.exit(main())
