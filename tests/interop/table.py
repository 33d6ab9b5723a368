"""Sends `cmpca take` a message for each rule of what is refused and what is done.

Words: the program, and a folder to work in. Each message is answered over a copy of one journal, plainly and inside a nested message;
replies are compared octet for octet with those of authority.py, and what the journal holds then is looked at. At last all leaves of
each key are used. Prints how many comparisons agreed, and each that didn't; ends with status 1 where there is one.
"""

import os
import sys
from concurrent.futures import ThreadPoolExecutor

from authority import IP, Wish, granted, polled, refused, revoked, stored, waiting
from cmp_messages import CR, IR, asked, enrolment, issued, message, polls, public, requests, revocation, revocations, subject
from home import RA_VERIFIED, Home, other_key
from rows import all_rows
from take import Run


def use_up_replies(home):
    """Takes each Reply leaf that is left, by polls of a key; then keys are refused last of all, and secrets are answered."""
    course, tid = home.course.fork("journal-replies"), b"P"

    def poll(*numbers):
        return message(home.poller, polls(*numbers), tid=tid, received=course.nonce(tid))

    for leaf in range(course.leaves, 32):
        last = poll(0)
        course.step(f"Reply leaf {leaf}", last, polled())
    course.step("no Reply leaf, a poll of two", poll(0, 0), refused("badRequest"))
    course.step("no Reply leaf, a poll", poll(0), refused("systemUnavail"))
    course.step("no Reply leaf, a cr of a key", message(home.signer, enrolment(CR, home.new)), refused("systemUnavail"))
    course.step("no Reply leaf, a stored reply", last, stored(course.replies[tid]))
    course.step("no Reply leaf, an ir", message(home.device, enrolment(IR, home.new)), granted(IP, Wish(home.new.name, home.new.info)))


def use_up_certificates(home):
    """Takes each Issue leaf that is left, by certificates; then no more are granted, and what needs none is done."""
    course = home.course.fork("journal-certificates")

    def vouched(number):
        info = other_key(bytes([number]))
        body = requests(IR, (asked(subject(home.new.name), public(info)), RA_VERIFIED))
        return message(home.voucher, body), granted(IP, Wish(home.new.name, info))

    for leaf in range(course.grants + 2, 32):
        course.step(f"Issue leaf {leaf}", *vouched(leaf))
    course.step("no Issue leaf, another", vouched(32)[0], refused("systemUnavail"))
    course.step("no Issue leaf, of a device", message(home.device, enrolment(IR, home.new)), refused("systemUnavail"))
    course.step("no Issue leaf, one that is held", message(home.waiter, enrolment(IR, home.new)), waiting(IP))
    course.step("no Issue leaf, an rr", message(home.device, revocations(revocation(*issued(3)))), revoked(3, 0))
    released = message(home.waiter, polls(0), tid=b"D", received=course.nonce(b"D"))
    course.step("no Issue leaf, one that was released", released, refused("systemUnavail"))


def main():
    run = Run(sys.argv[1], "", sys.argv[2])
    home = Home(run)
    if not run.differs:
        rows = all_rows(home)

        def play(numbered):
            number, row = numbered
            course = home.course.fork(f"journal-{number}", row.moved)
            differs = course.take(row.sent, row.answer)
            os.remove(run.file(course.journal))
            return differs

        with ThreadPoolExecutor(os.cpu_count()) as pool:
            for row, differs in zip(rows, pool.map(play, enumerate(rows))):
                run.check(f"{row.what}: {differs}", differs is None)
        use_up_replies(home)
        use_up_certificates(home)
    for what in run.differs:
        print(f"differs: {what}")
    print(f"{run.agreed} of {run.agreed + len(run.differs)} comparisons agreed")
    return 1 if run.differs else 0


if __name__ == "__main__":
    sys.exit(main())
