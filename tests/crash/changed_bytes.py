"""A directory of three small parts, of which each byte is changed and each file is cut, lengthened, missing and
exchanged: the program answers what a reader finds that was written from the tables of docs/BYTES.md."""
import os
import shutil
import tempfile
import time
from itertools import combinations

import directory
from program import Server, Wrong, query, side_by_side, want

MOST = 600  # bytes of all files
SECONDS = 2
MEMORY = 65536  # KiB
FRONT = slice(17, 25)
DAYS = (
    [{"_time": "2024-01-01T00:00:00Z", "_msg": "a"}],
    [{"_time": "2024-02-01T00:00:01Z", "n": "7"}, {"_time": "2024-02-01T00:00:01Z", "n": "-2"}],
    [{"_time": "2024-03-01T00:00:02Z", "s": "x"}, {"_time": "2024-03-01T00:00:02Z", "s": "é"}],
)


def made(work):
    """Returns the files of a directory that a server wrote: three parts, and a list in each slot."""
    path = os.path.join(work, "made")
    server = Server(path)
    try:
        connection = server.connect()
        for number, rows in enumerate(DAYS, 1):
            want("a batch has another number", connection.insert(*rows) == number)
            if number == 1:
                settle(connection)
        settle(connection)
    finally:
        server.stop()
    files = directory.load(path)
    size = sum(map(len, files.values()))
    want(f"files {sorted(files)} of {size} bytes", len(files) == 5 and size <= MOST)
    found = directory.read(files)
    fields = [numbered.row.fields for numbered in found.rows]
    wanted = [{name: value for name, value in row.items() if name != "_time"} for rows in DAYS for row in rows]
    want(f"the reader finds {fields}", found.front() == len(DAYS) and fields == wanted)
    return files


def settle(connection):
    """Waits until each batch is settled."""
    end = time.monotonic() + 30
    while time.monotonic() < end:
        batches, settled = connection.status()
        if batches == settled:
            return
        time.sleep(0.02)
    raise Wrong(f"{settled} of {batches} batches are settled after 30 s")


def expected(files):
    """Returns the status, the output and the line of errors of the query `*`."""
    try:
        return 0, directory.read(files).answer(), b""
    except directory.Fault as fault:
        return 6, b"", f"{fault}\n".encode()


def with_byte(files, file, at, value):
    data = files[file]
    return {**files, file: data[:at] + bytes([value]) + data[at + 1 :]}


def changed(files):
    """Each byte, as five other values."""
    for file, data in files.items():
        for at, byte in enumerate(data):
            for value in sorted({0, 1, 255, (byte + 1) % 256, byte ^ 128} - {byte}):
                yield f"file {file} with {value} at {at}", with_byte(files, file, at, value)


def cut(files):
    """Each file, at each length."""
    for file, data in files.items():
        for length in range(len(data)):
            yield f"file {file} cut to {length}", {**files, file: data[:length]}


def lengthened(files):
    """Each file, by one byte."""
    for file, data in files.items():
        for byte in (0, 1, data[-1]):
            yield f"file {file} with {byte} behind it", {**files, file: data + bytes([byte])}


def missing(files):
    """Each file, and any two of them."""
    for gone in [*combinations(files, 1), *combinations(files, 2)]:
        yield f"without {gone}", {file: data for file, data in files.items() if file not in gone}


def exchanged(files):
    """Each file with another."""
    for one, other in combinations(files, 2):
        yield f"files {one} and {other} exchanged", {**files, one: files[other], other: files[one]}


def large_fronts(files):
    """A front in the live list that no memory would hold."""
    slot = directory.live_list(files).generation % 2
    for front in (2**32, 2**56, 2**63 - 1, 2**63, 2**64 - 1):
        data = bytearray(files[slot])
        data[FRONT] = front.to_bytes(8, "little")
        yield f"a front of {front}", {**files, slot: bytes(data)}


CHANGES = (changed, cut, lengthened, missing, exchanged, large_fronts)


class Asked:
    """Queries over changed files, and the most that one of them took."""

    def __init__(self, place):
        self.place, self.seconds, self.peak, self.refused = place, 0.0, 0, 0

    def ask(self, case):
        """Raises `Wrong` where the program answers something else than the reader."""
        name, files = case
        path = tempfile.mkdtemp(dir=self.place)
        os.rmdir(path)
        directory.store(path, files)
        found, wanted = query(path), expected(files)
        shutil.rmtree(path)
        seen = found.status, found.out, found.err
        want(f"{name}: the program says {seen}, the reader {wanted}", seen == wanted)
        self.seconds, self.peak = max(self.seconds, found.seconds), max(self.peak, found.peak)
        self.refused += wanted[0] == 6


def tests(work, options):
    """Yields the name of each test and what it does."""
    made_files = {}

    def files():
        if not made_files:
            made_files.update(sorted(made(work).items()))
        return made_files

    def test(change):
        whole, asked = Asked(options.quick), Asked(options.quick)
        whole.ask(("unchanged", files()))
        count = len(side_by_side(asked.ask, change(files())))
        want(f"{asked.seconds:.2f} s of processor time", asked.seconds <= SECONDS)
        memory = f"{asked.peak} KiB"
        if whole.peak <= MEMORY:
            want(f"a peak of {memory}", asked.peak <= MEMORY)
        else:
            memory += f" (not judged: a build for debugging takes {whole.peak} for unchanged files)"
        return (f"{count} directories of {sum(map(len, files().values()))} bytes, {asked.refused} refused; "
                f"at most {asked.seconds:.2f} s and {memory}")

    for change in CHANGES:
        yield f"bytes: {change.__name__.replace('_', ' ')}", lambda change=change: test(change)
