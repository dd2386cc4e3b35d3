"""A directory as a power cut may leave it: of what was not synced, any changes are there, and writes may be cut short.

A file's bytes are durable once the file is synced, and names once the directory is."""
import os

from program import want
from traces import numbers_of, texts_of

IMAGES = 16  # that are made of a moment


class File:
    """A file: its durable bytes, and the changes since, each with its number. A change is a place and bytes that were
    written there, or a length to which the file was cut."""

    def __init__(self):
        self.durable, self.changes = b"", []

    def sync(self, last):
        """Makes the changes up to a number durable."""
        for number, change in self.changes:
            if number <= last:
                self.durable = whole(self.durable, change)
        self.changes = [each for each in self.changes if each[0] > last]


def whole(data, change):
    """Returns bytes with a change."""
    at, written = change
    if written is None:
        return data[:at] + bytes(max(at - len(data), 0))
    data += bytes(max(at - len(data), 0))
    return data[:at] + written + data[at + len(written) :]


def torn(random, data, change):
    """Returns bytes with a change as a power cut may leave it: not at all, whole, cut short, or with other bytes from
    some place on."""
    at, written = change
    outcome = random.randrange(4 if written else 2)
    if outcome == 0:
        return data
    if outcome == 1:
        return whole(data, change)
    if len(written) == 1:
        return whole(data, (at, bytes([random.choice((0, 1, 1, 255))])))
    length = random.choice((0, 1, len(written) - 1, random.randrange(len(written) + 1)))
    if outcome == 2:
        return whole(data, (at, written[:length]))
    filler = bytes([random.choice((0, 1, 255))])
    return whole(data, (at, written[:length] + filler * (len(written) - length)))


class Disk:
    """The files of a directory. Changes of names are numbered too: a name and its file, or None where it is removed."""

    def __init__(self, path):
        self.path, self.parent = path, os.path.dirname(path)
        self.exists = self.durable = False
        self.names, self.durable_names, self.renamed = {}, {}, []
        self.count = 0  # of changes

    def change(self, file, change):
        self.count += 1
        file.changes.append((self.count, change))

    def name(self, name, file):
        self.count += 1
        self.renamed.append((self.count, (name, file)))
        set_name(self.names, (name, file))

    def sync_names(self, last):
        for number, change in self.renamed:
            if number <= last:
                set_name(self.durable_names, change)
        self.renamed = [each for each in self.renamed if each[0] > last]

    def image(self, names, data):
        """Returns the files with the names that one function makes, and with the bytes that another one does."""
        chosen = dict(self.durable_names)
        for number, change in self.renamed:
            if names(number):
                set_name(chosen, change)
        return {name: data(file) for name, file in chosen.items()}

    def images(self, random):
        """Yields what a power cut now may leave: nothing of the changes, all of them, all but the last, the last one
        torn, and any of them."""

        def all_of(file, changes):
            data = file.durable
            for _, change in changes:
                data = whole(data, change)
            return data

        def any_of(file):
            data = file.durable
            for _, change in file.changes:
                data = torn(random, data, change)
            return data

        yield self.image(lambda number: False, lambda file: file.durable)
        yield self.image(lambda number: True, lambda file: all_of(file, file.changes))
        yield self.image(lambda number: number < self.count,
                         lambda file: all_of(file, [each for each in file.changes if each[0] < self.count]))
        for _ in range(3):
            yield self.image(lambda number: True, any_of)
        for _ in range(IMAGES - 6):
            yield self.image(lambda number: random.randrange(2), any_of)


def set_name(names, change):
    name, file = change
    if file is None:
        names.pop(name, None)
    else:
        names[name] = file


class Replay:
    """Follows the calls of a program, and keeps a disk as they change it. Where it takes no syncs, those of the files
    and names of the directory do nothing."""

    UNKNOWN = ("write", "writev", "pwritev", "pwritev2", "fallocate", "copy_file_range", "sendfile", "sync_file_range")
    NAMES = ("rename", "renameat", "renameat2", "link", "linkat")

    def __init__(self, path, home, syncs=True):
        self.disk, self.home, self.syncs = Disk(path), home, syncs
        self.opened = {}  # by descriptor: the path
        self.syncing = {}  # by thread: the last change before its sync

    def start(self):
        """Starts a new process, which has no descriptors. What others did stays."""
        self.opened, self.syncing = {}, {}

    def follow(self, call):
        """Follows a call, and returns whether it changed something."""
        if call.result is None:
            self.begin(call)
            return False
        return call.result >= 0 and self.end(call)

    def begin(self, call):
        if call.name in ("fsync", "fdatasync"):
            self.syncing[call.thread] = self.disk.count
        elif call.name == "close":
            self.opened.pop(numbers_of(call.words)[0], None)

    def end(self, call):
        name, words = call.name, call.words
        if name in ("dup", "dup2", "dup3"):
            path = self.opened.get(numbers_of(words)[0])
            self.opened.pop(call.result, None)
            return bool(path and self.opened.update({call.result: path}))
        if name in self.NAMES:
            want(f"this test knows no {name} of {words[:80]}", not any(map(self.inside, self.paths(words))))
        elif name in self.UNKNOWN:
            path = self.opened.get(numbers_of(words)[0])
            want(f"this test knows no {name} of {path}", not path or not self.inside(path))
        method = getattr(self, "end_" + name, None)
        return bool(method and method(call))

    def paths(self, words):
        return [os.path.normpath(os.path.join(self.home, os.fsdecode(text))) for text in texts_of(words)]

    def inside(self, path):
        return os.path.dirname(path) == self.disk.path

    def file(self, path):
        return self.disk.names.get(os.path.basename(path))

    def end_openat(self, call):
        path = self.paths(call.words)[0]
        flags = call.words.split('"')[-1]
        self.opened[call.result] = path
        if not self.inside(path):
            return False
        want(f"this test knows no {flags}", "O_TRUNC" not in flags and "O_APPEND" not in flags)
        if "O_CREAT" not in flags or self.file(path):
            return False
        self.disk.name(os.path.basename(path), File())
        return True

    def end_open(self, call):
        return self.end_openat(call)

    def end_mkdir(self, call):
        self.disk.exists = self.disk.exists or self.paths(call.words)[0] == self.disk.path

    def end_mkdirat(self, call):
        self.end_mkdir(call)

    def end_pwrite64(self, call):
        path = self.opened.get(numbers_of(call.words)[0])
        if not path or not self.inside(path):
            return False
        data, place = texts_of(call.words)[0], numbers_of(call.words)[-1]
        self.disk.change(self.file(path), (place, data[: call.result]))
        return True

    def end_ftruncate(self, call):
        number, length = numbers_of(call.words)
        path = self.opened.get(number)
        if not path or not self.inside(path):
            return False
        self.disk.change(self.file(path), (length, None))
        return True

    def end_truncate(self, call):
        path = self.paths(call.words)[0]
        if self.inside(path):
            self.disk.change(self.file(path), (numbers_of(call.words)[-1], None))
        return self.inside(path)

    def end_unlink(self, call):
        path = self.paths(call.words)[0]
        if self.inside(path):
            self.disk.name(os.path.basename(path), None)
        return self.inside(path)

    def end_unlinkat(self, call):
        want(f"this test knows no {call.words[:80]}", call.words.startswith("AT_FDCWD"))
        return self.end_unlink(call)

    def end_fsync(self, call):
        path, last = self.opened.get(numbers_of(call.words)[0]), self.syncing[call.thread]
        if path == self.disk.parent:
            self.disk.durable = self.disk.exists
        elif path == self.disk.path and self.syncs:
            self.disk.sync_names(last)
        elif path and self.inside(path) and self.syncs:
            self.file(path).sync(last)

    def end_fdatasync(self, call):
        self.end_fsync(call)
