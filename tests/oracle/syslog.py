"""Syslog: the frames of a stream by RFC 6587, and the messages of RFC 5424."""
import re

from faults import Fault
import moments
from values import record_of

FRAME = 65536
COUNTED = tuple(b"%d" % digit for digit in range(1, 10))  # these bytes begin the length of a counted frame
STREAM = ("hostname", "app_name", "proc_id")
HEADER = (("hostname", 255), ("app_name", 48), ("proc_id", 128), ("msg_id", 32))
STAMP = re.compile("[0-9]{4}-[0-9]{2}-[0-9]{2}T[0-9]{2}:[0-9]{2}:[0-9]{2}([.][0-9]{1,9})?(Z|[+-][0-9]{2}:[0-9]{2})")
IDENTIFIER = re.compile(rb"[^ \]]*")
ESCAPED = re.compile(rb'\\(["\\\]])')
PARAMETER = re.compile(rb' ([^ =\]"]+)="((?:[^"\\\]]|\\["\\\]]|\\(?!["\\\]]))*)"')


def frame_at(data, start):
    """Returns the message of the frame that starts at a place, and its end.

    The message is None where the data ends inside the frame. Raises `BadLength` or `TooLong`.
    """
    if data[start : start + 1] in COUNTED:
        return counted_frame(data, start)
    end = data.find(b"\n", start)
    if (len(data) if end < 0 else end) - start > FRAME:
        raise Fault("TooLong", start)
    if end < 0:
        return None, start
    line = data[start:end]
    return line[:-1] if line.endswith(b"\r") else line, end + 1


def counted_frame(data, start):
    """Returns the message and the end of a frame that begins with its length."""
    end = start
    while data[end : end + 1].isdigit():
        end += 1
        if int(data[start:end]) > FRAME:
            raise Fault("TooLong", start)
    if end == len(data):
        return None, start
    if data[end : end + 1] != b" ":
        raise Fault("BadLength", end)
    message_end = end + 1 + int(data[start:end])
    if message_end > len(data):
        return None, start
    return data[end + 1 : message_end], message_end


def frames(data, ended):
    """Returns the messages of a stream, of which data has come, and its fault or None. Empty lines give no message."""
    messages, start = [], 0
    try:
        while start < len(data):
            message, end = frame_at(data, start)
            if message is None:
                break
            messages += [message] if message else []
            start = end
    except Fault as fault:
        return messages, fault
    if not ended or start == len(data):
        return messages, None
    if data[start : start + 1] in COUNTED:
        return messages, Fault("Cut", start)
    return messages + [data[start:]], None


def read_stamp(text):
    """Returns the time of a timestamp, or None for `-`. Raises `BadTime`."""
    if text == b"-":
        return None
    text = text.decode("latin-1")
    try:
        moment = moments.read_moment(text)
    except Fault:
        raise Fault("BadTime")
    if not STAMP.fullmatch(text):
        raise Fault("BadTime")
    return moment


def is_name(text):
    return 1 <= len(text) <= 32 and all(33 <= byte <= 126 and byte not in b'=]"' for byte in text)


def element(message, start):
    """Returns the parameters and the end of the element that starts at a place, or None if none does."""
    name = IDENTIFIER.match(message, start + 1)
    if not is_name(name[0]):
        return None
    parameters, at = [], name.end()
    while match := PARAMETER.match(message, at):
        if not is_name(match[1]):
            return None
        value = ESCAPED.sub(rb"\1", match[2])
        parameters.append((name[0] + b"." + match[1], value))
        at = match.end()
    return (parameters, at + 1) if message[at : at + 1] == b"]" else None


def structured_data(message, start):
    """Returns the parameters and the end of the structured data that starts at a place. Raises `BadData`."""
    parameters, at = [], start
    if message[at : at + 1] == b"-":
        at += 1
    while message[start : start + 1] == b"[" and message[at : at + 1] == b"[":
        found = element(message, at)
        if found is None:
            raise Fault("BadData", start)
        parameters += found[0]
        at = found[1]
    if at == start or message[at : at + 1] not in (b"", b" "):
        raise Fault("BadData", start)
    return parameters, at


class Parts:
    """The parts of a message, each of which ends at a blank or at the end."""

    def __init__(self, message, at):
        self.message, self.at = message, at

    def next(self):
        """Returns the next part and its place."""
        start, end = self.at, self.message.find(b" ", self.at)
        end = len(self.message) if end < 0 else end
        self.at = min(end + 1, len(self.message))
        return self.message[start:end], start


def read_message(message):
    """Returns the time of a message, None for `-`, and its fields. Raises the fault of the first part that is wrong."""
    priority = re.match(rb"<(0|[1-9][0-9]{0,2})>", message)
    if not priority or int(priority[1]) > 191:
        raise Fault("BadPri")
    number = int(priority[1])
    parts = Parts(message, priority.end())
    if parts.next()[0] != b"1":
        raise Fault("BadVersion")
    time = read_stamp(parts.next()[0])
    fields = [("priority", str(number)), ("facility", str(number // 8)), ("severity", str(number % 8))]
    fields.append(("format", "rfc5424"))
    for name, longest in HEADER:
        text, place = parts.next()
        if not 1 <= len(text) <= longest or not all(33 <= byte <= 126 for byte in text):
            raise Fault("BadHeader", place)
        fields.append((name, "" if text == b"-" else text.decode()))
    parameters, end = structured_data(message, parts.at)
    fields += [(name.decode(), lossy(value)) for name, value in parameters]
    fields.append(("_msg", lossy(message[end + 1 :].removeprefix(b"\xef\xbb\xbf"))))
    return time, record_of(fields)


def lossy(data):
    """Returns bytes as a text, with U+FFFD for what is not UTF-8."""
    return data.decode("utf-8", "replace")
