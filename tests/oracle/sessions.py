"""The rows that came in, and sessions of HTTP and of syslog over them (docs/HTTP.md and docs/SYSLOG.md)."""
from functools import lru_cache

from faults import Fault
from filters import holds, of_row, patterns_of
from http_replies import JSON, LINES, Refusal, Reply, delivered, reply_to_fault, wanted
from http_requests import QUERY_PATH, requests_of
from patterns import first_refused
from pipes import apply, patterns_of_pipe
from queries import parse
from rows import Options, row_of_line, row_of_syslog
import syslog
from values import json_line
from words import size

REQUESTS = 1000
UNSETTLED = 4096
BATCH = 67108864  # the most bytes of the names and values of a batch
NAMED = 16  # a reply names no more refused lines
READ, INPUT, MESSAGES = 65536, 268435456, 256


@lru_cache(maxsize=64)
def parsed(query):
    """Returns the filter and the pipes of a query. Raises its fault, or that of its first refused pattern."""
    filter_, pipes = parse(query)
    patterns = patterns_of(filter_) + [pattern for pipe in pipes for pattern in patterns_of_pipe(*pipe)]
    refused = first_refused(patterns)
    if refused is not None:
        raise Fault("RegexRefused", refused)
    return filter_, pipes


def body_lines(body):
    """Returns the lines of a body with their numbers from 1, but for those of blanks, tabs and carriage returns."""
    return [(number, line) for number, line in enumerate(body.split(b"\n"), 1) if line.strip(b" \t\r")]


def rows_of_body(options, now, body):
    """Returns the rows of the lines of a body, and the refused lines, each as its number and the name of its fault."""
    rows, refused = [], []
    for number, line in body_lines(body):
        try:
            rows.append(row_of_line(options, now, line))
        except Fault as fault:
            refused.append((number, fault.name))
    return rows, refused


class Log:
    """Batches of rows, none of which is settled."""

    def __init__(self):
        self.batches = []

    def rows(self):
        return [row for batch in self.batches for row in batch]

    def insert(self, rows):
        """Adds a batch. Raises `Full` where too many wait to be settled."""
        if len(self.batches) == UNSETTLED:
            raise Fault("Full")
        self.batches.append(rows)

    def records(self, query, now):
        """Returns the records that answer a query. Raises its fault."""
        filter_, pipes = parsed(query)
        return apply(pipes, [row.record() for row in self.rows() if holds(filter_, of_row(row), now)])

    def reply_to_insert(self, options, now, body):
        rows, refused = rows_of_body(options, now, body)
        said = {"accepted": str(len(rows)), "refused": str(len(refused))}
        if refused:
            said["faults"] = ", ".join(f"{number} {name}" for number, name in refused[:NAMED])
        if rows:
            weight = sum(size(name) + size(value) for row in rows for name, value in row.fields.items())
            if weight > BATCH:
                return Reply(413, f"Large {weight}\n")
            try:
                self.insert(rows)
            except Fault:
                return Reply(503, f"Full {UNSETTLED}\n")
            said["batch"] = str(len(self.batches))
        return Reply(200, json_line(said), JSON)

    def reply_to_query(self, query, now):
        try:
            return Reply(200, "".join(map(json_line, self.records(query, now))), LINES)
        except Fault as fault:
            if fault.name == "Overflow":
                return Reply(422, f"Overflow in {fault.at}\n")
            return Reply(400, f"RegexRefused number {fault.at}\n" if fault.name == "RegexRefused" else f"{fault}\n")

    def reply(self, request, now):
        """Returns the reply to a request at a time."""
        try:
            want = wanted(request)
        except Refusal as refusal:
            return refusal.reply
        if isinstance(want, Options):
            return self.reply_to_insert(want, now, request.body)
        if request.path == QUERY_PATH:
            return self.reply_to_query(want, now)
        if request.path == "/health":
            return Reply(200, "OK\n")
        return Reply(200, json_line({"batches": str(len(self.batches)), "settled": "0"}), JSON)


def fault_text(fault):
    """Returns a fault with its place as answers have it."""
    return fault.name if fault.at is None else f"{fault.name} {{ at: {fault.at} }}"


class HttpSession:
    """A connection over a log: what is written, the turns, each with its time and the batches so far, and the end."""

    def __init__(self, log, data, times):
        requests, fault = requests_of(data)
        self.log, self.written, self.turns = log, b"", []
        for request in requests[:REQUESTS]:
            now = times[min(len(self.turns), len(times) - 1)]
            reply = log.reply(request, now)
            self.turns.append((now, len(log.batches)))
            self.written += delivered(reply, request, last=len(self.turns) == REQUESTS)
        asked = len(requests) <= REQUESTS and bool(requests) and requests[-1].last
        self.end = "AskedClose" if asked else "Closed"
        if not asked and len(requests) >= REQUESTS:
            self.end = "Limit"
        elif fault:
            self.written += reply_to_fault(fault)
            self.end = f"BadInput({fault_text(fault)})"


class SyslogSession:
    """A stream of syslog over a log, read by read. The end is None until it ends."""

    def __init__(self, log, times):
        self.log, self.times = log, list(times)
        self.data, self.at, self.accepted, self.refused, self.end = b"", 0, 0, 0, None

    def copied(self):
        """Returns a session of its own that continues here."""
        other = SyslogSession(Log(), self.times)
        other.log.batches = list(self.log.batches)
        other.data, other.at, other.end = self.data, self.at, self.end
        other.accepted, other.refused = self.accepted, self.refused
        return other

    def feed(self, data):
        """Takes what one read gave. Nothing is the end of the input."""
        self.data += data
        messages, fault = [], None
        try:
            while self.at < len(self.data):
                message, end = syslog.frame_at(self.data, self.at)
                if message is None:
                    break
                messages += [message] if message else []
                self.at = end
            if not data and self.at < len(self.data):
                messages.append(self.last_message())
        except Fault as found:
            fault = found
        self.take(messages)
        if self.end is None:
            self.end = f"BadFrame({fault_text(fault)})" if fault else None if data else "Closed"

    def last_message(self):
        """Returns the message that the end of the input makes."""
        if self.data[self.at : self.at + 1] in syslog.COUNTED:
            raise Fault("Cut", self.at)
        return self.data[self.at :]

    def take(self, messages):
        """Inserts the messages that one read completed, which have one time, in batches."""
        if not messages:
            return
        now = self.times.pop(0) if len(self.times) > 1 else self.times[0]
        rows = []
        for message in messages:
            try:
                rows.append(row_of_syslog(now, message))
            except Fault:
                self.refused += 1
        for first in range(0, len(rows), MESSAGES):
            batch = rows[first : first + MESSAGES]
            try:
                self.log.insert(batch)
            except Fault:
                self.end = f"Full {{ held: {UNSETTLED} }}"
                return
            self.accepted += len(batch)


def syslog_session(log, data, times, piece=READ):
    """Serves a stream whose reads give at most `piece` bytes."""
    session = SyslogSession(log, times)
    while session.end is None:
        read = data[len(session.data) : len(session.data) + piece]
        session.feed(read)
        if read and session.end is None and len(session.data) >= INPUT and session.data != data:
            session.end = "Limit"
    return session
