"""Times one `cmpca take` by the height of the reply key, and says where the seconds go.

Words: the program, a folder to write in, and the heights. The seconds are the processor's, in which the disk's own time isn't; the runs
are made in turns, and of each kind the least counts. `mount` is the whole of `show`; `keys` is what octets that are no message take
beyond it, where both keys are grown and the authority's own certificates signed; `answer` is what a request that is granted takes
beyond that.
"""

import os
import resource
import subprocess
import sys

sys.path.insert(0, os.path.join(os.path.dirname(os.path.abspath(__file__)), "..", "tests", "interop"))
import device  # noqa: E402

CREDENTIALS = '[[credential]]\nkind = "mac"\nreference = "dev-1"\nsecret = "7365637265742d31"\nrights = ["enrol"]\n'
SETTINGS = """name = "Fleet CA"
issue_tree = 5
issue_ots = 4
reply_tree = {tree}
reply_ots = {ots}
wait = 300
skew = 300
rounds = 1000
check_after = 60
days = 365
"""
TURNS = {5: 30, 10: 15, 15: 1}


def seconds(words, content, wanted):
    begun = resource.getrusage(resource.RUSAGE_CHILDREN)
    ended = subprocess.run(words, input=content, capture_output=True)
    spent = resource.getrusage(resource.RUSAGE_CHILDREN)
    if ended.returncode != wanted:
        sys.exit(f"{words[-1]}: status {ended.returncode}, {ended.stdout[:80]!r}")
    return spent.ru_utime - begun.ru_utime + spent.ru_stime - begun.ru_stime


def least(words, height, request):
    """The least seconds of `show`, of a take of no message and of a take that grants, in turns: the journal is put back before each."""
    with open(words[1], "rb") as file:
        before = file.read()
    turns = []
    for _ in range(TURNS[height]):
        with open(words[1], "wb") as file:
            file.write(before)
        turns.append((seconds([*words, "show"], b"", 0), seconds([*words, "take"], b"", 1), seconds([*words, "take"], request, 0)))
    return map(min, zip(*turns))


def main():
    program, top = sys.argv[1:3]
    print("height  w     take    mount     keys   answer   (seconds)")
    for height, ots, width in [(int(word), ots, width) for word in sys.argv[3:] for ots, width in ((4, 8), (2, 2))]:
        folder = os.path.join(top, f"{height}-{width}")
        os.mkdir(folder)
        with open(os.path.join(folder, "key"), "wb") as file:
            file.write(os.urandom(96))
        words = [program, os.path.join(folder, "journal"), os.path.join(folder, "key")]
        seconds([*words, "init"], SETTINGS.format(tree=height // 5 + 4, ots=ots).encode(), 0)
        seconds([*words, "enlist"], CREDENTIALS.encode(), 0)
        mount, keys, whole = least(words, height, device.request())
        print(f"{height:6} {width:2} {whole:8.3f} {mount:8.3f} {keys - mount:8.3f} {whole - keys:8.3f}")


if __name__ == "__main__":
    main()
