"""How `cmpca` opens, makes, locks and refuses real files. Words: the program, a folder to work in."""

import errno
import fcntl
import os
import shutil
import signal
import subprocess
import sys
import tempfile
import time

HERE = os.path.dirname(os.path.abspath(__file__))
PROGRAM = os.path.abspath(sys.argv[1])
NOBODY = 65534
DEVICE = b"""[[credential]]
kind = "mac"
reference = "%s"
secret = "7365637265742d31"
rights = ["enrol"]
"""

passed = 0
failed = 0


def look(title, found, told):
    """Counts a comparison."""
    global passed, failed
    if found == told:
        passed += 1
    else:
        failed += 1
        print(f"not as told: {title}: {found!r}, told {told!r}")


def skip(title, why):
    print(f"skipped: {title}: {why}")


class Ended:
    def __init__(self, done):
        self.status = done.returncode
        self.out = done.stdout.decode("latin-1")
        self.err = done.stderr.decode("latin-1")


def run(*words, text=b"", user=None):
    """Runs the program. As another user, where one is named."""
    more = {} if user is None else {"user": user, "group": user, "extra_groups": []}
    return Ended(subprocess.run([PROGRAM, *words], input=text, capture_output=True, timeout=120, **more))


def mode(path):
    return os.stat(path).st_mode & 0o777


def content(path):
    with open(path, "rb") as file:
        return file.read()


def write(path, octets):
    with open(path, "wb") as file:
        file.write(octets)


def fresh_key(path):
    """A key file: two secrets, and two identifiers that differ."""
    write(path, os.urandom(32) + b"\1" * 16 + os.urandom(32) + b"\2" * 16)
    os.chmod(path, 0o600)


def found():
    fresh_key("key")
    done = run("journal", "key", "init", text=SETTINGS)
    look("init", (done.status, done.err), (0, ""))


def modes():
    """What is made has mode 0600, whatever the umask; a key file that others may read gets a warning and no refusal."""
    for mask in (0o000, 0o022, 0o077):
        os.umask(mask)
        if os.path.exists("journal"):
            os.remove("journal")
        found()
        look(f"the mode of a journal under umask {mask:03o}", mode("journal"), 0o600)
    os.umask(0o022)
    for bits, warned in ((0o600, False), (0o400, False), (0o644, True), (0o640, True), (0o604, True), (0o622, False)):
        os.chmod("key", bits)
        done = run("journal", "key", "take", text=b"no message")
        look(f"a key file of mode {bits:o}: status", done.status, 1)
        look(f"a key file of mode {bits:o}: a warning", "warning: key: " in done.err, warned)
        look(f"a key file of mode {bits:o}: no warning of show", "warning" in run("journal", "key", "show").err, False)
    os.chmod("key", 0o600)


def one_file():
    """One file for two roles is refused, and holds what it held."""
    before = content("key")
    os.link("key", "its_link")
    os.symlink("key", "its_name")
    for journal in ("key", "./key", "its_link", "its_name", os.path.abspath("key")):
        for command in (["init"], ["take"], ["show"], ["enlist"], ["dismiss", "mac", "dev-1"], ["release", "00"]):
            done = run(journal, "key", *command, text=SETTINGS)
            look(f"{journal} as journal and key, {command[0]}", (done.status, done.out[:6]), (2, "usage:"))
            look(f"{journal} as journal and key, {command[0]}: a line", "one file" in done.err, True)
    look("the key file", content("key"), before)
    os.remove("its_link")
    os.remove("its_name")
    done = run("none", "none", "init", text=SETTINGS)
    look("a file that isn't there, for both", (done.status, os.path.exists("none")), (2, False))


def not_there():
    """A journal that isn't there is told as not founded, and stays away; init makes it only where it founds it."""
    for path in ("none", "no/folder"):
        for command in (["show"], ["take"], ["enlist"], ["dismiss", "mac", "dev-1"], ["release", "00"], ["deny", "00"]):
            text = DEVICE % b"dev-1" if command == ["enlist"] else b"no message"
            done = run(path, "key", *command, text=text)
            look(f"{path}, {command[0]}", (done.status, done.out, os.path.exists(path)), (8, "not founded\n", False))
    for text, told in ((b"", 1), (b"name = 1", 1), (SETTINGS + b"other = 1\n", 1)):
        done = run("none", "key", "init", text=text)
        look("init that is refused", (done.status, os.path.exists("none")), (told, False))
    done = run("none", "no_key", "init", text=SETTINGS)
    look("init without a key file", (done.status, os.path.exists("none")), (3, False))
    look("init without a key file: the reason", done.err, "cmpca: no_key: No such file or directory\n")


def advice():
    """Lines on standard error help; standard output is as it was."""
    done = run("none", "key", "init", text=SETTINGS.replace(b"issue_tree = 5", b"issue_tree = 4"))
    look("a bad setting", (done.status, done.out), (1, "refused bad setting issue_tree\n"))
    look("a bad setting: its range", "issue_tree: 5, 6 or 7" in done.err, True)
    done = run("none", "key", "init", text=SETTINGS + b"other = 1\n")
    look("an unknown setting", (done.status, done.out), (1, "refused bad setting unknown\n"))
    look("an unknown setting: the keys", "the keys are name, issue_tree" in done.err, True)
    done = run("journal", "key", "frob")
    look("no command", (done.status, done.out), (2, "usage: cmpca verify SECRET | JOURNAL KEY COMMAND\n"))
    look("no command: the commands", "init, take, show, enlist" in done.err, True)
    done = run("journal", "key", "take", text=b"no message")
    look("a refused message", (done.status, done.out[:1], len(done.err.splitlines())), (1, "0", 1))
    done = run("journal", "key", "show")
    look("no line where all is done", (done.status, done.err), (0, ""))


def begin(words, number):
    """Begins an enlist of one device, whose file of credentials is there whole: a run that is refused ends without reading it."""
    with tempfile.TemporaryFile() as devices:
        devices.write(DEVICE % (b"dev-%d" % number))
        devices.seek(0)
        return subprocess.Popen([*words, "journal", "key", "enlist"], stdin=devices, stdout=subprocess.PIPE, stderr=subprocess.DEVNULL)


def locks():
    """A journal that another process has is a fault, and stays as it was; show takes no lock."""
    before = content("journal")
    with open("journal", "rb") as held:
        fcntl.flock(held, fcntl.LOCK_EX)
        for command, text in ((["enlist"], DEVICE % b"dev-9"), (["dismiss", "mac", "dev-1"], b""), (["release", "00"], b""), (["init"], SETTINGS)):
            done = run("journal", "key", *command, text=text)
            look(f"in use, {command[0]}", (done.status, done.out), (5, "disk fault\n"))
            look(f"in use, {command[0]}: the reason", done.err, "cmpca: journal: in use by another process\n")
        done = run("journal", "key", "take", text=b"no message")
        look("in use, take", done.status, 5)
        look("in use, take: the reason", done.err, "cmpca: journal: in use by another process\n")
        look("in use, show", run("journal", "key", "show").status, 0)
        look("in use: the journal", content("journal"), before)
    done = run("journal", "key", "enlist", text=DEVICE % b"dev-1")
    look("no longer in use", (done.status, done.out), (0, "enlisted 1\n"))
    # The lock is held as long as the process runs: a run that waits for its input has it, once the journal is mounted.
    # Of many runs at once each that ends with 0 is in the history, and no other.
    start = 100
    runs = [begin([PROGRAM], start + number) for number in range(12)]
    done = [(one.wait(), one.stdout.read()) for one in runs]
    told = sum(status == 0 for status, _ in done)
    look("runs at once end with 0 or 5", {status for status, _ in done} <= {0, 5}, True)
    shown = run("journal", "key", "show").out.splitlines()
    look("runs at once: each that was done is in the history, and no other", shown[0], f"changes {2 + told}")
    look("runs at once: one at least was done", told > 0, True)
    # `flock` queues runs: all are done.
    if shutil.which("flock") is None:
        skip("a queue of runs", "no flock")
        return
    before = int(run("journal", "key", "show").out.splitlines()[0].split()[1])
    runs = [begin(["flock", "queue", PROGRAM], start + 50 + number) for number in range(8)]
    look("queued runs", [one.wait() for one in runs], [0] * 8)
    look("queued runs: changes", run("journal", "key", "show").out.splitlines()[0], f"changes {before + 8}")


def read_only():
    """show works on a file that can only be read; what may write is refused, and says why."""
    before = content("journal")
    user = NOBODY if os.geteuid() == 0 else None
    if user is not None:
        # The superuser reads and writes all: another user runs.
        for path in ("journal", "key"):
            os.chown(path, NOBODY, NOBODY)
    os.chmod("journal", 0o400)
    try:
        done = run("journal", "key", "show", user=user)
        look("read only, show", (done.status, done.err), (0, ""))
        done = run("journal", "key", "dismiss", "mac", "dev-1", user=user)
        look("read only, dismiss", (done.status, done.out, done.err), (5, "disk fault\n", "cmpca: journal: Permission denied\n"))
        os.chmod("journal", 0o000)
        done = run("journal", "key", "show", user=user)
        look("no mode, show", (done.status, done.out, done.err), (5, "disk fault\n", "cmpca: journal: Permission denied\n"))
        os.chmod("key", 0o000)
        os.chmod("journal", 0o600)
        done = run("journal", "key", "take", text=b"no message", user=user)
        look("a key file that can't be read", (done.status, done.out, done.err), (3, "read fault\n", "cmpca: key: Permission denied\n"))
        os.chmod("key", 0o600)
        if user is not None:
            done = run("made", "key", "init", text=SETTINGS, user=user)
            look("a folder that can't be written", (done.status, done.err, os.path.exists("made")), (5, "cmpca: made: Permission denied\n", False))
    except (PermissionError, OSError) as error:
        skip("read only", error)
    os.chmod("key", 0o600)
    os.chmod("journal", 0o600)
    look("read only: the journal", content("journal"), before)
    look("a folder as journal", run(".", "key", "show").status, 5)


def full_disk():
    """On a disk without room a run ends with a fault that says why, and the journal holds what it held."""
    os.mkdir("small")
    made = subprocess.run(["mount", "-t", "tmpfs", "-o", "size=16k,mode=0755", "tmpfs", "small"], capture_output=True)
    if made.returncode != 0:
        skip("a full disk", "no file system can be mounted")
        return
    try:
        write("small/fill", b"")
        write("small/journal", content("journal"))
        before = content("small/journal")
        with open("small/fill", "ab", buffering=0) as fill:
            try:
                while True:
                    fill.write(b"\0" * 512)
            except OSError as error:
                look("the small disk is full", error.errno, errno.ENOSPC)
        # The journal grows within its last page, and then no more.
        faults = 0
        for number in range(200):
            done = run("small/journal", "key", "enlist", text=DEVICE % (b"full-%d" % number))
            if done.status != 0:
                faults += 1
                look("a full disk", (done.status, done.out, done.err), (5, "disk fault\n", "cmpca: small/journal: No space left on device\n"))
                break
        look("the disk became full", faults, 1)
        done = run("small/journal", "key", "show")
        look("a full disk: show", done.status, 0)
        # The last octet is the gate of the next record, which a change opens.
        look("a full disk: the changes from before", content("small/journal").startswith(before[:-1]), True)
        os.remove("small/fill")
        done = run("small/journal", "key", "enlist", text=DEVICE % b"room-again")
        look("with room again", (done.status, done.out), (0, "enlisted 1\n"))
        # A new journal on a full disk.
        with open("small/fill", "ab", buffering=0) as fill:
            try:
                while True:
                    fill.write(b"\0" * 512)
            except OSError:
                pass
        done = run("small/new", "key", "init", text=SETTINGS)
        look("init on a full disk", (done.status, "No space left on device" in done.err), (5, True))
        look("init on a full disk: not founded", run("small/new", "key", "show").status, 8)
    finally:
        subprocess.run(["umount", "small"], capture_output=True)


def interrupted():
    """A signal in the middle of a read, a write or another call doesn't end the run."""
    read_end, write_end = os.pipe()
    text = DEVICE % b"slow-1"
    one = subprocess.Popen([PROGRAM, "journal", "key", "enlist"], stdin=read_end, stdout=subprocess.PIPE, stderr=subprocess.PIPE)
    os.close(read_end)
    for at in range(0, len(text), 16):
        for _ in range(5):
            one.send_signal(signal.SIGSTOP)
            time.sleep(0.002)
            one.send_signal(signal.SIGCONT)
            time.sleep(0.002)
        os.write(write_end, text[at : at + 16])
    os.close(write_end)
    look("a read that is stopped and goes on", (one.wait(), one.stdout.read(), one.stderr.read()), (0, b"enlisted 1\n", b""))
    if shutil.which("strace") is None:
        skip("calls that answer EINTR", "no strace to let them; cmp_ports tests them by a reader and a writer that answer it")
        return
    # Each call at an odd place among its kind, on this file alone, answers EINTR.
    for number, (call, path) in enumerate((("read", "input"), ("write", "output"), ("openat", "journal"), ("flock", "journal"), ("pread64", "journal"), ("pwrite64", "journal"), ("fdatasync", "journal"))):
        write("input", DEVICE % (b"eintr-%d" % number))
        words = ["strace", "-f", "-qq", "-o", "calls", "-P", path, "-e", f"inject={call}:error=EINTR:when=1+2"]
        with open("input", "rb") as text, open("output", "wb") as told:
            done = subprocess.run([*words, PROGRAM, "journal", "key", "enlist"], stdin=text, stdout=told, stderr=subprocess.PIPE)
        if b"ptrace" in done.stderr or b"not permitted" in done.stderr:
            skip("calls that answer EINTR", "strace may not trace here")
            return
        said = [line for line in done.stderr.splitlines() if not line.startswith(b"strace: ")]
        look(f"{call} of {path} answers EINTR", (done.returncode, content("output"), said), (0, b"enlisted 1\n", []))
        look(f"{call} of {path}: it did", b"INJECTED" in content("calls"), True)


def main():
    for part in (modes, one_file, not_there, advice, locks, read_only, full_disk, interrupted):
        part()
    print(f"{passed} passed, {failed} failed")
    return failed != 0


with open(os.path.join(HERE, "..", "..", "examples", "settings.toml"), "rb") as file:
    SETTINGS = file.read()
os.chdir(sys.argv[2])
sys.exit(main())
