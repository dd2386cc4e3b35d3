"""A disk without room: `load` ends with its status, and a server goes on answering until too many batches wait. What
was settled before is found afterwards, where there is room again."""
import ctypes
import json
import os
import sys
import time

from changed_bytes import settle
from program import Skip, Server, limited, records, run, want

SIZE = 100_000  # bytes that a file may have, or a file system
LOADED = 400  # batches of which each has some thousand bytes
UNSETTLED = 4096
TOO_LARGE, NO_SPACE = "File too large (os error 27)", "No space left on device (os error 28)"
STILL = 2  # seconds for which the settled number is watched
FAILED = 5
GROUP = 1000  # lines of a batch of `load`


def line_of(number, size=40):
    """Returns a line with a text of so many bytes and some more."""
    return {"n": str(number), "_msg": f"line {number} " + "abcdefghijklmnopqrstuvwxyz"[number % 26] * size}


def numbers_of(found):
    return [int(record["n"]) for record in found]


def check_prefix(path, least, what):
    """Checks that the rows of a directory are the first ones, as far as was settled, and returns how many there are."""
    numbers = numbers_of(records(path))
    want(f"{len(numbers)} rows of {least} {what}", len(numbers) >= least)
    want("the rows are not the first ones", numbers == list(range(len(numbers))))
    return len(numbers)


def load(path, reason, setup=None):
    """Loads more lines than there is room for. Each batch has one row, and blank lines."""
    lines = [json.dumps(line_of(number, SIZE // 100)) + "\n" * GROUP for number in range(LOADED)]
    found = run(["load", "--dir", path], "".join(lines).encode(), setup)
    said = found.err.decode().splitlines()
    want(f"status {found.status}, {said[:3]}", found.status == FAILED)
    named = len(said) == 2 and said[0].startswith(path) and said[0].endswith(": " + reason)
    want(f"it said {said[:3]}", named and said[1] == "vault fault")
    flushed = [int(line.split()[1]) for line in found.out.decode().splitlines()]
    want(f"flushed {flushed[:9]}", flushed and flushed == sorted(flushed))
    return flushed[-1]


def loads(path, reason, setup=None, after=lambda: None):
    flushed = load(path, reason, setup)
    after()
    count = check_prefix(path, flushed, "flushed ones")
    return f"status {FAILED}, {flushed} batches flushed, {count} found"


def serves(path, reason, setup=None, after=lambda: None):
    server = Server(path, setup=setup)
    try:
        accepted, settled = fill(server)
    finally:
        said = server.stop()
    lines = said.splitlines()
    want(f"it said {lines[:3]}", len(lines) == 1 and lines[0].startswith(path) and lines[0].endswith(": " + reason))
    after()
    count = check_prefix(path, settled, "settled ones")
    goes_on(path, count)
    return f"{accepted} inserts accepted, {settled} of them settled, {count} found"


def fill(server):
    """Inserts until the log is full, and returns how many inserts were accepted and how many are settled."""
    connection = server.connect()
    accepted = highest = 0
    while True:
        if connection.insert(line_of(accepted)) is not None:
            accepted += 1
            highest = max(highest, connection.status()[1]) if accepted % 64 == 0 else highest
        elif stands(connection):
            break
        want("it is never full", accepted <= 20 * UNSETTLED)
    batches, settled = connection.status()
    want(f"{batches} batches, {settled} settled", batches == accepted == settled + UNSETTLED and 0 < highest <= settled)
    want("settled moves", stands(connection))
    want("it is no longer full", connection.insert(line_of(accepted)) is None)
    want("it answers otherwise", numbers_of(connection.records()) == list(range(accepted)))
    want("it ended", server.process.poll() is None)
    return accepted, settled


def stands(connection):
    """Returns whether nothing is settled for some seconds."""
    before = connection.status()
    time.sleep(STILL)
    return connection.status() == before


def goes_on(path, count):
    """Checks that a server with room settles more rows."""
    server = Server(path)
    try:
        connection = server.connect()
        want("it starts elsewhere", connection.status() == (count, count))
        want("it does not go on", connection.insert(line_of(count)) == count + 1)
        settle(connection)
    finally:
        said = server.kill()
    want(f"it said {said!r}", said == "")
    check_prefix(path, count + 1, "settled ones")


class Tmpfs:
    """A small file system of this process alone, which ends with it."""

    MS_REMOUNT, MS_PRIVATE, MS_REC = 32, 1 << 18, 1 << 14
    CLONE_NEWNS, CLONE_NEWUSER = 0x20000, 0x10000000

    def __init__(self, path):
        self.path, self.system = path, ctypes.CDLL(None, use_errno=True)

    def call(self, name, *words):
        if getattr(self.system, name)(*words) != 0:
            raise Skip(f"no tmpfs can be mounted here: {name}: {os.strerror(ctypes.get_errno())}")

    def mount(self):
        user, group = os.geteuid(), os.getegid()
        self.call("unshare", self.CLONE_NEWNS | (self.CLONE_NEWUSER if user else 0))
        if user:
            self.become_root(user, group)
        self.call("mount", b"none", b"/", None, self.MS_REC | self.MS_PRIVATE, None)
        self.resize(SIZE, 0)

    def become_root(self, user, group):
        """Lets a user and a group own what is mounted, in a name space of users that was just made."""
        try:
            for name, text in (("setgroups", "deny"), ("uid_map", f"0 {user} 1"), ("gid_map", f"0 {group} 1")):
                with open(f"/proc/self/{name}", "w") as file:
                    file.write(text)
        except OSError as fault:
            raise Skip(f"no tmpfs can be mounted here: {fault}") from fault

    def resize(self, size, flags):
        self.call("mount", b"none", self.path.encode(), b"tmpfs", flags, f"size={size}".encode())

    def grow(self):
        self.resize(100_000_000, self.MS_REMOUNT)


def on_tmpfs(test, path):
    """Runs a test in a process of its own, over a file system that has no room, and then has."""
    os.mkdir(path)
    sys.stdout.flush()
    read, write = os.pipe()
    child = os.fork()
    if child == 0:
        os.close(read)
        try:
            tmpfs = Tmpfs(path)
            tmpfs.mount()
            said = "passed", test(os.path.join(path, "logs"), NO_SPACE, after=tmpfs.grow)
        except Skip as skip:
            said = "skipped", str(skip)
        except BaseException as wrong:  # whatever is wrong is the outcome of the test
            said = "failed", f"{type(wrong).__name__}: {wrong}"
        os.write(write, json.dumps(said).encode())
        os._exit(0)
    os.close(write)
    with os.fdopen(read) as pipe:
        outcome, text = json.load(pipe)
    os.waitpid(child, 0)
    if outcome == "skipped":
        raise Skip(text)
    want(text, outcome == "passed")
    return text


def tests(work, options):
    for name, test in (("load", loads), ("serve", serves)):
        limit = limited(SIZE)
        path = os.path.join(work, f"limited_{name}")
        yield f"full: {name}, files of {SIZE} bytes", lambda test=test, path=path: test(path, TOO_LARGE, limit)
        path = os.path.join(work, f"full_{name}")
        yield f"full: {name}, a tmpfs of {SIZE} bytes", lambda test=test, path=path: on_tmpfs(test, path)
