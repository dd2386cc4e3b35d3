"""Power cuts: the calls of `load` and of a server are replayed, and at each change directories are made that a power
cut may leave there. Each of them has a prefix of the history that holds what was promised before."""
import hashlib
import json
import os
import re
import shutil
import tempfile
from itertools import accumulate
from random import Random

from changed_bytes import settle
from disks import Replay
from program import Gone, Server, Wrong, query, records_of, run, side_by_side, want
from traces import calls_of, lines_of, texts_of, words_of

GROUP = 1000  # lines of a batch of `load`
LARGE = 200_000  # bytes of a large row
MOST = 3000  # inserts into a server that is to be killed
# of the keeper's syncs some of those of the list, in its first three rounds
SYNCS = (4, 6, 10, 12, 15, 17)
PROMISES = (re.compile(rb"flushed (\d+)\n"), re.compile(rb'"settled":"(\d+)"'))


class Cuts:
    """The directories that power cuts may leave, and how many batches each has to have at least."""

    def __init__(self, path, seed, syncs=True):
        self.replay, self.random = Replay(path, os.getcwd(), syncs), Random(seed)
        self.moments, self.images, self.promised, self.wanted = 0, {}, 0, {}

    def follow(self, lines):
        """Follows the calls of a process."""
        self.replay.start()
        for call in calls_of(lines):
            changed = self.replay.follow(call)
            raised = call.result is None and self.promise(call)
            if changed or raised:
                self.cut()
        self.cut()

    def promise(self, call):
        """Takes what a call that begins says to others, and returns whether it promises more than before."""
        if call.name not in ("write", "sendto"):
            return False
        said = b"".join(texts_of(call.words))
        found = [int(number) for form in PROMISES for number in form.findall(said)]
        more = max(found, default=0) > self.promised
        self.promised = max([self.promised, *found])
        return more

    def cut(self):
        """Keeps what a power cut now may leave."""
        if not self.replay.disk.exists:
            return
        want("a promise before the directory is durable", self.replay.disk.durable or not self.promised)
        self.moments += 1
        for files in self.replay.disk.images(self.random):
            digest = hashlib.sha256(repr(sorted(files.items())).encode()).digest()
            self.images.setdefault(digest, files)
            self.wanted[digest] = max(self.wanted.get(digest, 0), self.promised)

    def check(self, place, batches):
        """Makes each directory in a place and checks it, and returns which numbers of batches were found."""
        want("no call changed the directory", self.images)
        rows = [row for batch in batches for row in batch]
        counts = {end: count for count, end in enumerate(accumulate(map(len, batches), initial=0))}

        def check_one(digest):
            found = found_in(place, self.images[digest])
            count = counts.get(len(found))
            want(f"{len(found)} rows are no whole batches", count is not None)
            want("the rows are not the first ones", found == rows[: len(found)])
            want(f"{count} batches of {self.wanted[digest]} promised ones", count >= self.wanted[digest])
            return count

        return set(side_by_side(check_one, self.images))


def found_in(place, files):
    """Returns the numbers of the rows that a query finds in these files."""
    path = tempfile.mkdtemp(dir=place)
    for name, data in files.items():
        with open(os.path.join(path, name), "wb") as file:
            file.write(data)
    found = query(path)
    shutil.rmtree(path)
    sizes = {name: len(data) for name, data in files.items()}
    want(f"files {sizes}: status {found.status}, {found.err[:200]!r}", found.status == 0)
    return [int(record["n"]) for record in records_of(found.out)]


def row_of(number, days=3):
    """Returns a row of one of these days."""
    return {"n": str(number), "_time": f"2024-01-{1 + number % days:02}T00:00:00Z", "_msg": f"row {number}"}


def large_row_of(number):
    """Returns a row of a day of its own, of which some are more than a piece that is written at once."""
    text = hashlib.sha256(str(number).encode()).hexdigest() * (LARGE // 64)
    return {"n": str(number), "_time": "2024-02-01T00:00:00Z", "_msg": text}


def numbered(sizes):
    """Returns lists of so many numbers, which go on from one to the next."""
    ends = list(accumulate(sizes, initial=0))
    return [list(range(first, end)) for first, end in zip(ends, ends[1:])]


def trace_load(work, path, inject):
    """Loads batches of one to three rows, and a large one, in two runs over one directory. Returns the batches, and the
    lines of the calls of each run."""
    batches, traces = numbered([1, 2, 3] * 12 + [6]), []
    for group in (batches[:34], batches[34:]):
        trace = os.path.join(work, f"load{len(traces)}.trace")
        source = "".join(map(lines_of_batch, group)).encode()
        found = run(["load", "--dir", path], source, before=words_of(trace, inject))
        want(f"load ended with {found.status}: {found.err[:300]!r}", found.status == 0 and found.err == b"")
        traces.append(lines_of(trace))
    return batches, traces


def lines_of_batch(numbers):
    """Returns the lines of a batch: its rows, and blank lines."""
    make = large_row_of if len(numbers) > 3 else row_of
    rows = "".join(json.dumps(make(number)) + "\n" for number in numbers)
    return rows + "\n" * (GROUP - len(numbers))


def trace_serve(work, path, inject):
    """Inserts into a server in steps, and waits until what was inserted is settled. Then it starts again."""
    batches, traces = numbered([1, 3, 2] * 2 + [1] * 300 + [2] * 3), []
    for steps in (((0, 1), (1, 6), (6, 306)), ((306, 307), (307, 309))):
        trace = os.path.join(work, f"serve{len(traces)}.trace")
        server = Server(path, before=words_of(trace, inject))
        try:
            connection = server.connect()
            for first, end in steps:
                insert(connection, batches, range(first, end))
        finally:
            said = server.stop()
        want(f"the server said {said!r}", said == "")
        traces.append(lines_of(trace))
    return batches, traces


def insert(connection, batches, numbers):
    """Inserts batches and waits until they are settled. At times it asks how many are."""
    for n in numbers:
        want("a batch has another number", connection.insert(*map(row_of, batches[n])) == n + 1)
        if n % 16 == 0:
            connection.status()
    settle(connection)


def check_cuts(trace, name, work, options):
    """Checks what power cuts may leave of a run. Where syncs did nothing it must find something wrong."""
    path = os.path.join(work, name)
    batches, traces = trace(work, path, options.inject)
    cuts, unsynced = (Cuts(path, options.seed, syncs) for syncs in (True, False))
    for lines in traces:
        cuts.follow(lines)
        unsynced.follow(lines)
    want(f"{cuts.promised} of {len(batches)} batches are promised", cuts.promised == len(batches))
    found = cuts.check(options.quick, batches)
    try:
        unsynced.check(options.quick, batches)
    except Wrong:
        return (f"{len(batches)} batches, {cuts.moments} moments, {len(cuts.images)} directories: "
                f"{len(found)} prefixes, the longest of {max(found)} batches")
    raise Wrong("nothing is wrong where no sync does anything")


def trace_kill(work, path, inject, sync):
    """Inserts into a server that is killed as its keeper syncs for the so many-th time, and into the next one. Returns
    the batches, and the lines of the calls of both."""
    first, second = f"{path}.first.trace", f"{path}.second.trace"
    server, batches = Server(path, before=words_of(first, [f"fsync:signal=KILL:when={sync}"])), []
    try:
        connection = server.connect()
        for n in range(MOST):
            batches.append([n])
            connection.insert(row_of(n, days=1))
        raise Wrong(f"the server was not killed at sync {sync}")
    except Gone:
        pass
    finally:
        server.kill()
    server = Server(path, before=words_of(second, inject))
    try:
        connection = server.connect()
        front, settled = connection.status()
        want(f"{settled} of {front} batches are settled at the start", front == settled <= len(batches))
        batches = [*batches[:front], [MOST]]
        insert(connection, batches, range(front, front + 1))
    finally:
        server.stop()
    return batches, [lines_of(first), lines_of(second)]


def check_kills(work, options):
    """Checks what power cuts may leave of servers that follow a killed one, whose last changes were not synced."""

    def check(sync):
        path = os.path.join(work, f"kill{sync}")
        batches, traces = trace_kill(work, path, options.inject, sync)
        cuts = Cuts(path, options.seed)
        for lines in traces:
            cuts.follow(lines)
        cuts.check(options.quick, batches)
        return len(cuts.images)

    images = side_by_side(check, SYNCS)
    return f"{len(images)} servers, {sum(images)} directories"


def tests(work, options):
    for name, trace in (("load", trace_load), ("serve", trace_serve)):
        yield f"power cuts: {name}", lambda trace=trace, name=name: check_cuts(trace, name, work, options)
    yield "power cuts: serve after a kill", lambda: check_kills(work, options)
