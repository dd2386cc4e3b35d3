"""Runs the program over directories: queries, and servers that are inserted into and asked how they are."""
import json
import os
import re
import resource
import signal
import socket
import subprocess
import tempfile
from concurrent.futures import ThreadPoolExecutor
from threading import Timer
from typing import NamedTuple
from urllib.parse import quote_plus

TOP = os.path.dirname(os.path.dirname(os.path.dirname(os.path.abspath(__file__))))
PROGRAM = os.environ.get("DUVONKA", os.path.join(TOP, "crates/duvonka/out/duvonka"))
STARTS = 30  # seconds within which a server listens
SECONDS = 60  # within which a query or a request ends, also of a slow build on a busy machine


class Wrong(Exception):
    """What was seen is not what was wanted."""


class Skip(Exception):
    """What a test needs is not there."""


class Gone(Exception):
    """A connection ended before a reply was whole."""


def want(what, seen):
    if not seen:
        raise Wrong(what)


class Outcome(NamedTuple):
    """How a command ended: its status, which is that of the signal below 0, and what it wrote and took."""

    status: int
    out: bytes
    err: bytes
    seconds: float  # of processor time
    peak: int  # of memory, in KiB


def run(words, source=b"", setup=None, before=()):
    """Runs the program with these words to its end, and with other ones before its path."""
    with tempfile.TemporaryFile() as given, tempfile.TemporaryFile() as out, tempfile.TemporaryFile() as err:
        given.write(source)
        given.seek(0)
        process = subprocess.Popen([*before, PROGRAM, *words], stdin=given, stdout=out, stderr=err, preexec_fn=setup)
        timer = signal_after(process, SECONDS)
        _, code, used = os.wait4(process.pid, 0)
        timer.cancel()
        process.returncode = os.waitstatus_to_exitcode(code)
        out.seek(0)
        err.seek(0)
        seconds = used.ru_utime + used.ru_stime
        return Outcome(process.returncode, out.read(), err.read(), seconds, used.ru_maxrss)


def signal_after(process, seconds):
    """Kills a process that still runs after these seconds."""
    timer = Timer(seconds, lambda: os.kill(process.pid, signal.SIGKILL))
    timer.daemon = True
    timer.start()
    return timer


def side_by_side(call, items):
    """Calls for each item, some at once for each processor, and returns what the calls return. Where one raises the
    rest is left out."""
    pool = ThreadPoolExecutor(2 * len(os.sched_getaffinity(0)))
    try:
        return list(pool.map(call, items))
    finally:
        pool.shutdown(cancel_futures=True)


def query(directory, text="*"):
    return run(["query", "--dir", directory, text])


def records(directory):
    """Returns the rows of a directory in the order of the history, as records."""
    found = query(directory)
    want(f"query ended with {found.status}: {found.err[:300]!r}", found.status == 0 and found.err == b"")
    return records_of(found.out)


def records_of(lines):
    return [json.loads(line) for line in lines.splitlines()]


def limited(size):
    """Returns what a process does before it starts, so that no file of its own passes a size."""

    def limit():
        signal.signal(signal.SIGXFSZ, signal.SIG_IGN)
        resource.setrlimit(resource.RLIMIT_FSIZE, (size, size))

    return limit


class Connection:
    """A connection that lives on. The server ends it after some requests, and then a new one is made."""

    def __init__(self, port):
        self.port, self.stream, self.lines = port, None, None

    def ask(self, method, path, body=b""):
        """Sends a request, and returns the status and the body of its reply."""
        try:
            if self.stream is None:
                self.stream = socket.create_connection(("127.0.0.1", self.port), timeout=SECONDS)
                self.lines = self.stream.makefile("rb")
            head = f"{method} {path} HTTP/1.1\r\nHost: h\r\nContent-Length: {len(body)}\r\n\r\n"
            self.stream.sendall(head.encode() + body)
            return self.reply()
        except OSError as fault:
            raise Gone(str(fault)) from fault

    def reply(self):
        first, length, ends = self.line(), 0, False
        while (line := self.line()) != b"\r\n":
            name, _, value = line.decode("latin-1").lower().partition(":")
            length = int(value) if name == "content-length" else length
            ends = ends or name == "connection" and value.strip() == "close"
        body = self.lines.read(length)
        if len(body) < length:
            raise Gone("a reply was cut")
        if ends:
            self.close()
        return int(first.split()[1]), body

    def line(self):
        line = self.lines.readline()
        if not line.endswith(b"\n"):
            raise Gone("no whole line came")
        return line

    def close(self):
        if self.stream is not None:
            self.lines.close()
            self.stream.close()
            self.stream = None

    def insert(self, *rows):
        """Inserts rows as one batch, and returns its number, or None where the log is full."""
        status, body = self.ask("POST", "/insert/jsonline", "".join(json.dumps(row) + "\n" for row in rows).encode())
        if status == 503:
            return None
        want(f"an insert was answered with {status} {body!r}", status == 200)
        said = json.loads(body)
        want(f"an insert was answered with {body!r}", (said["accepted"], said["refused"]) == (str(len(rows)), "0"))
        return int(said["batch"])

    def status(self):
        """Returns how many batches there are, and how many of them are settled."""
        status, body = self.ask("GET", "/status")
        want(f"/status was answered with {status} {body!r}", status == 200)
        said = json.loads(body)
        return int(said["batches"]), int(said["settled"])

    def records(self, text="*"):
        status, body = self.ask("GET", "/select/logsql/query?query=" + quote_plus(text))
        want(f"a query was answered with {status} {body[:300]!r}", status == 200)
        return records_of(body)


class Server:
    """A server over a directory, at a port that the system chose. Its first line names it."""

    def __init__(self, directory, workers=6, setup=None, before=()):
        self.directory = directory
        words = [*before, PROGRAM, "serve", "--dir", directory, "--http", "127.0.0.1:0", "--workers", str(workers)]
        self.process = subprocess.Popen(
            words, stdin=subprocess.DEVNULL, stdout=subprocess.DEVNULL, stderr=subprocess.PIPE, preexec_fn=setup)
        timer = signal_after(self.process, STARTS)
        line = self.process.stderr.readline().decode()
        timer.cancel()
        named = re.match(r"http on 127\.0\.0\.1:(\d+) ", line)
        if not named:
            self.kill()
        want(f"the server said {line!r}", named)
        self.port = int(named[1])

    def connect(self):
        return Connection(self.port)

    def kill(self):
        """Ends it at once, and returns what it still said."""
        self.process.kill()
        return self.said()

    def stop(self):
        """Ends it by the signal of `kill`, or at once if that does nothing, and returns what it still said."""
        self.process.terminate()
        timer = signal_after(self.process, STARTS)
        said = self.said()
        timer.cancel()
        return said

    def said(self):
        """Returns what it says until it ends."""
        said = self.process.stderr.read().decode()
        self.process.wait()
        self.process.stderr.close()
        return said
