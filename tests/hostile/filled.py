"""A disk that becomes full in the middle of an enrolment, at each place.

Words: the program, a folder to work in, and by how many octets the room grows. The journal may grow by no octet, then by some more, until
the message is answered: each run before that ends with a fault of the disk and an unprotected refusal, `show` tells what it told before,
and with room the same message is done, once. So with the ir, and with the certConf.
"""

import sys

from stand import ERROR, Stand, granted_tids, is_whole
from cmp_messages import IR, Key, Reply, Secret, confirmation, confirmations, enrolment, message
from course import SETTINGS, credential


def grow(run, what, sent, step):
    """Takes a message with more and more room; how many runs it took, and the reply."""
    room, before = len(run.read("journal")), run.cmpca(["show"], b"")
    for more in range(0, 100_000, step):
        status, reply = run.cmpca(["take"], sent.octets, most=room + more)
        if status == 0:
            break
        told = f"{what} with room for {more} octets more"
        run.check(f"{told}: status {status}", status == 5)
        run.check(f"{told}: a refusal", is_whole(reply) and Reply(reply).tag == ERROR and 0xA0 not in Reply(reply).behind)
        run.check(f"{told}: show", run.cmpca(["show"], b"") == before)
    run.check(f"{what}: was refused for want of room, and done at last", more > 0 and status == 0)
    run.check(f"{what} again: the same octets", run.cmpca(["take"], sent.octets) == (0, reply))
    return more // step, reply


def main():
    run, step = Stand(*sys.argv[1:3]), int(sys.argv[3])
    device = Secret("dev-1", b"the secret of dev-1", 3)
    run.check("init", run.cmpca(["init"], SETTINGS.encode())[0] == 0)
    run.check("enlist", run.cmpca(["enlist"], credential(device, ["enrol"]).encode()) == (0, b"enlisted 1\n"))
    runs, ip = grow(run, "ir", message(device, enrolment(IR, Key("device-1")), tid=b"one"), step)
    reply = Reply(ip)
    accepts = confirmations(confirmation(reply.certificate(), status=0))
    more, _ = grow(run, "certConf", message(device, accepts, tid=b"one", received=reply.fields[0xA5]), step)
    run.check("one certificate", granted_tids(run.read("journal")) == [b"one"])
    print(f"{runs + more} runs on a full disk")
    return run.end()


if __name__ == "__main__":
    sys.exit(main())
