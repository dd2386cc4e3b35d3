"""Sessions of syslog over a log that is empty before (docs/SYSLOG.md): how many messages were accepted and how many
refused, how the session ends, and what a query answers afterwards.

A short input is also read a byte at a time, and so that each of its reads fails; the answer is written where it is not
the same, or not the one of the input that ended there.
"""
from faults import Fault
from sessions import INPUT, READ, Log, SyslogSession, syslog_session
from spelling import case_of, unspelled
from values import json_line

TIMES, QUERY_TIME, SHORT = (5, 6, 7), 9, 200


class Told:
    """The outcome of a session, and what a query answers after it."""

    def __init__(self, session, query):
        self.accepted, self.refused, self.end = session.accepted, session.refused, session.end
        self.batches = len(session.log.batches)
        try:
            self.lines = "".join(f" {json_line(record)[:-1]}" for record in session.log.records(query, QUERY_TIME))
        except Fault:
            self.lines = " no answer"

    def report(self):
        return f"accepted {self.accepted}, refused {self.refused}, {self.end}"


def answer(line):
    name, query, piece, count, first, last = (line.split(" / ", 5) + [""] * 5)[:6]
    data = unspelled(first) * (int(count) if count.isdigit() else 1) + unspelled(last)
    told = Told(syslog_session(Log(), data, TIMES, int(piece) or READ), query)
    said = f"{name}: {told.report()}, {told.batches} batches:{told.lines}"
    if len(data) <= SHORT:
        said += by_bytes(data, query, told) + failing(data, query)
    return said


def by_bytes(data, query, told):
    """Returns what a session says that is read a byte at a time, if that is something else."""
    other = Told(syslog_session(Log(), data, TIMES, 1), query)
    if (other.report(), other.lines) == (told.report(), told.lines):
        return ""
    return f"; a byte at a time: {other.report()}{other.lines}"


def failing(data, query):
    """Returns what sessions say of which a read fails, if it is not what the bytes before it give."""
    said, session = "", SyslogSession(Log(), TIMES)
    for call in range(len(data) + 1):
        stopped, closing = session.copied(), session.copied()
        stopped.end = session.end or "SourceFault"
        if session.end is None:
            closing.feed(b"")
            session.feed(data[call : call + 1])
        told, closed = Told(stopped, query), Told(closing, query)
        if not is_stopped(told, closed):
            said += f"; read {call} fails: {told.report()}{told.lines}"
    return said


def is_stopped(told, closed):
    """Returns whether a session is the one whose source failed where the input of the other ended."""
    if closed.end == "Closed":
        less = closed.accepted + closed.refused - told.accepted - told.refused
        return told.end == "SourceFault" and closed.lines.startswith(told.lines) and less in (0, 1)
    if closed.end.startswith("BadFrame(Cut"):
        return told.end == "SourceFault" and told.lines == closed.lines
    return (told.report(), told.lines) == (closed.report(), closed.lines)


def endless():
    """Returns the answer to an input without an end, of which each read has one line of the length of a read."""
    session = SyslogSession(Log(), TIMES)
    line = b"a" * (READ - 1) + b"\n"
    for _ in range(INPUT // READ):
        # what was read before is dropped, so that the lines need no memory
        session.data, session.at = b"", 0
        session.feed(line)
    return f"no end: accepted {session.accepted}, refused {session.refused}, Limit"


HEADERS = ("<13>1 - - - - - -", "<34>1 2003-10-11T22:14:15.003Z h su - I -", '<0>1 - h a 1 m [x n="v"]')
ENDS = [b"12x", b"5 ab", b"x", b"65537 ", b"9", b""]
TEXTS = ["", " error", " é", ' a\\"b', " \ufeff!", " {x}"]
WRONG = ["<192>1 - - - - - -", "<13>2 - - - - - -", "<13>1 x - - - - -", "x", "<13>1 - - - - -", "<13>1 - - - - - [x"]
QUERIES = ["* | delete _time, _stream, _stream_id", "*", "* | fields _time", "* | fields _msg, severity", "error"]


def message(random):
    if random.random() < 0.2:
        return random.choice(WRONG).encode("utf-8")
    return (random.choice(HEADERS) + random.choice(TEXTS)).encode("utf-8")


def frame(random):
    text = message(random)
    if random.random() < 0.5:
        return b"%d %s" % (len(text), text)
    return text + random.choice([b"\n", b"\n", b"\r\n", b"\n\n"])


def cases(random):
    """Returns the lines of a table of other streams."""
    one = case_of(b"<13>1 - - - - - -\n")
    counts = "* | stats count() as n"
    lines = [f"{count} in a read / {counts} / 0 / {count} / {one}" for count in (255, 256, 257, 513, 3640)]
    lines += [f"{count} reads / {counts} / 18 / {count} / {one}" for count in (2, 257, 4095, 4096, 4097)]
    for size in (65535, 65536, 65537):
        lines.append(f"a counted one of {size} / {counts} / 0 / 1 / {size}\\20;\\61x{size};")
        lines.append(f"a line of {size} / {counts} / 0 / 1 / \\61x{size};\\0a;")
        lines.append(f"a line of {size} with its end / {counts} / 0 / 1 / \\61x{size - 1};\\0d;\\0a;")
    for n in range(70):
        data = b"".join(frame(random) for _ in range(random.randint(1, 4)))
        data += random.choice([b"", b"", message(random), random.choice(ENDS)])
        # a query that counts has other lines wherever a read fails, so short inputs have none
        query, piece = random.choice(QUERIES), random.choice([0, 0, 1, 7, 18, 40])
        lines.append(f"case {n} / {query} / {piece} / 1 / {case_of(data)}")
    return lines
