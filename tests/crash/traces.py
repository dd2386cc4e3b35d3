"""The calls of a program that change files, as strace writes them."""
import re
import shutil
import subprocess
import time
from typing import NamedTuple

from program import Skip, Wrong

CALLS = ("openat open mkdir mkdirat write pwrite64 writev pwritev pwritev2 sendto ftruncate truncate fallocate "
         "copy_file_range sendfile unlink unlinkat fsync fdatasync sync_file_range rename renameat renameat2 link "
         "linkat close dup dup2 dup3 execve").split()
WHOLE = re.compile(r"(\w+)\((.*)\)\s+= (-?\d+|\?)(.*)")
BEGUN = re.compile(r"(\w+)\((.*) <unfinished \.\.\.>")
ENDED = re.compile(r"<\.\.\. (\w+) resumed>(.*)\)\s+= (-?\d+|\?)(.*)")
LAST = re.compile(r"(\d+) +\+\+\+ (?:exited|killed|superseded)")
LATE = 60  # seconds until strace has written all calls


class Call(NamedTuple):
    """A call that begins or ends. The result is None where it begins, and -1 where it failed or never happened."""

    thread: str
    name: str
    words: str
    result: object


def words_of(trace, inject):
    """Returns the words before those of a program whose calls are to be written to a file."""
    if not shutil.which("strace"):
        raise Skip("strace is missing")
    probe = subprocess.run(["strace", "-o", "/dev/null", "true"], stdout=subprocess.DEVNULL, stderr=subprocess.DEVNULL)
    if probe.returncode != 0:
        raise Skip("strace cannot trace a program here")
    words = ["strace", "-D", "-f", "-o", trace, "-e", "trace=" + ",".join(CALLS), "-s", "100000000", "-xx"]
    return words + [word for text in inject for word in ("-e", "inject=" + text)]


def lines_of(trace):
    """Waits until all calls of a process that ended are written, and returns their lines."""
    end = time.monotonic() + LATE
    while time.monotonic() < end:
        with open(trace) as file:
            text = file.read()
        lines = text.splitlines()
        threads = {line.split()[0] for line in lines}
        if text.endswith("\n") and threads == {found[1] for line in lines if (found := LAST.match(line))}:
            return lines
        time.sleep(0.1)
    raise Wrong("strace does not end")


def calls_of(lines):
    """Yields the calls in the order in which they begin and end. Calls whose end was made up are failures."""
    open_calls = {}
    for line in lines:
        thread, _, text = line.partition(" ")
        # so ends a call within which the process was killed
        text = text.strip().replace(" <unfinished ...>)", ")")
        if whole := WHOLE.fullmatch(text):
            name, words, result, more = whole.groups()
            yield Call(thread, name, words, None)
            yield Call(thread, name, words, result_of(result, more))
        elif begun := BEGUN.fullmatch(text):
            open_calls[thread] = begun[2]
            yield Call(thread, begun[1], begun[2], None)
        elif ended := ENDED.fullmatch(text):
            name, words, result, more = ended.groups()
            yield Call(thread, name, open_calls.pop(thread) + words, result_of(result, more))


def result_of(result, more):
    return -1 if result == "?" or "INJECTED" in more else int(result)


def texts_of(words):
    """Returns the texts among the words of a call."""
    return [bytes.fromhex(text.replace("\\x", "")) for text in re.findall(r'"([^"]*)"', words)]


def numbers_of(words):
    """Returns the numbers before and after the texts of a call."""
    return [int(word) for word in re.sub(r'"[^"]*"', "", words).split(", ") if re.fullmatch(r"-?\d+", word)]
