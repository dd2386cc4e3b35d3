"""Rows: their limits, their streams, and the rows of lines of JSON and of messages of syslog."""
import hashlib

from faults import Fault
from jsonlines import fields_of
import moments
import syslog
from values import in_order, quoted, set_field
from words import size

LINE = 1048576
NAME = 128
FIELDS = 1000
ROW = 262144
COMPUTED = ("_time", "_stream", "_stream_id")


class Row:
    """A row of a time and its fields. Those of the stream's names are its labels too."""

    def __init__(self, time, stream_names, fields):
        self.time = time
        self.fields = {name: value for name, value in fields.items() if name not in COMPUTED}
        self.labels = {name: value for name, value in self.fields.items() if name in stream_names}
        self.check()

    def check(self):
        """Raises the first fault of the limits that the row does not keep."""
        if self.time < 0:
            raise Fault("TimeRange")
        if any(size(name) > NAME for name in self.fields):
            raise Fault("NameLong")
        if len(self.fields) > FIELDS:
            raise Fault("ManyFields")
        if sum(size(name) + size(value) for name, value in self.fields.items()) > ROW:
            raise Fault("RowLarge")
        if not self.fields:
            raise Fault("Empty")

    def value(self, name):
        """Returns the value of a field, also of the three that are computed. A missing one is empty."""
        computed = {"_time": self.time_text, "_stream": self.stream_text, "_stream_id": self.stream_id}
        return computed[name]() if name in computed else self.fields.get(name, "")

    def record(self):
        return dict(self.fields) | {name: self.value(name) for name in COMPUTED}

    def time_text(self):
        return moments.write_moment(self.time)

    def stream_text(self):
        return "{" + ",".join(name + "=" + quoted(value) for name, value in in_order(self.labels)) + "}"

    def stream_id(self):
        return hashlib.sha256(self.stream_text().encode("utf-8")).hexdigest()[:32]


class Options:
    """What the arguments of an insert ask for. Of an argument that comes again the first counts."""

    def __init__(self, arguments):
        first = {}
        for name, value in arguments:
            first.setdefault(name, value)

        def pieces(name):
            return [piece for piece in first.get(name, "").split(",") if piece]

        self.stream_fields = pieces("_stream_fields")
        self.time_field = first.get("_time_field", "_time")
        self.message_fields = pieces("_msg_field")
        self.ignored_fields = pieces("ignore_fields")
        self.extra_fields = [tuple(piece.split("=", 1)) for piece in pieces("extra_fields")]
        if any(len(field) < 2 or not field[0] for field in self.extra_fields):
            raise Fault("BadExtra")


def row_of_line(options, now, line):
    """Returns the row of a line of JSON that came in at a time."""
    if len(line) > LINE:
        raise Fault("LineLong")
    try:
        fields = fields_of(line)
    except Fault as fault:
        raise Fault(fault.name)
    for name in options.ignored_fields:
        fields.pop(name, None)
    text = fields.pop(options.time_field, "")
    try:
        time = now if text in ("", "0") else moments.read_moment(text)
    except Fault:
        raise Fault("BadTime")
    for name in options.message_fields:
        if name in fields:
            set_field(fields, "_msg", fields.pop(name))
            break
    for name, value in options.extra_fields:
        set_field(fields, name, value)
    return Row(time, options.stream_fields, fields)


def row_of_syslog(now, message):
    """Returns the row of a message of syslog that came in at a time."""
    time, fields = syslog.read_message(message)
    return Row(now if time is None else time, syslog.STREAM, fields)
