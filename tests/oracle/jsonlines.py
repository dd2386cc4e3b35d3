"""Lines of JSON: the fields of an object by RFC 8259, or the fault and its place."""
import re

from faults import Fault
from values import set_field

DEPTH = 64
SPACE = b" \t\n\r"
DIGITS = b"0123456789"
WORDS = {b"t": b"true", b"f": b"false", b"n": b"null"}
ESCAPED = {b"b": 8, b"f": 12, b"n": 10, b"r": 13, b"t": 9}
PLAIN = re.compile(rb'[^"\\\x00-\x1f]*')


class Reader:
    """Reads a line from the left. `at` is the length of the longest start of it with which an object begins."""

    def __init__(self, line):
        self.line, self.at, self.depth, self.members = line, 0, 0, []

    def next(self):
        return self.line[self.at : self.at + 1]

    def next_is(self, bytes_):
        """Returns whether one of these bytes stands next."""
        return self.next() != b"" and self.next() in bytes_

    def take(self, bytes_):
        """Takes one of these bytes."""
        if not self.next_is(bytes_):
            raise Fault("NotJson", self.at)
        self.at += 1
        return self.line[self.at - 1 : self.at]

    def skip(self, bytes_):
        """Skips these bytes, as long as one of them stands next."""
        while self.next_is(bytes_):
            self.at += 1

    def enter(self, mark):
        """Takes the mark that opens an array or an object. At most 64 are open at one place."""
        if self.next_is(mark) and self.depth == DEPTH:
            raise Fault("TooDeep")
        self.take(mark)
        self.depth += 1

    def leave(self, mark):
        self.take(mark)
        self.depth -= 1

    def string(self):
        """Takes a string and returns its text."""
        self.take(b'"')
        units = []
        while True:
            plain = PLAIN.match(self.line, self.at)[0]
            units += plain.decode("utf-8")
            self.at += len(plain)
            if self.take(b'"\\') == b'"':
                return text_of(units)
            escape = self.take(b'"\\/bfnrtu')
            if escape == b"u":
                digits = b"".join(self.take(b"0123456789abcdefABCDEF") for _ in range(4))
                units.append(int(digits, 16))
            else:
                units.append(chr(ESCAPED.get(escape, escape[0])))

    def number(self):
        """Takes a number and returns it as it is spelled."""
        start = self.at
        if self.next_is(b"-"):
            self.at += 1
        if self.take(DIGITS) != b"0":
            self.skip(DIGITS)
        if self.next_is(b"."):
            self.at += 1
            self.take(DIGITS)
            self.skip(DIGITS)
        if self.next_is(b"eE"):
            self.at += 1
            if self.next_is(b"+-"):
                self.at += 1
            self.take(DIGITS)
            self.skip(DIGITS)
        return self.line[start : self.at].decode()

    def scalar(self):
        """Takes a value that is neither array nor object, and returns its text."""
        if self.next_is(b'"'):
            return self.string()
        if self.next_is(b"-" + DIGITS):
            return self.number()
        if not self.next_is(b"tfn"):
            raise Fault("NotJson", self.at)
        word = WORDS[self.next()]
        for place in range(len(word)):
            self.take(word[place : place + 1])
        return "" if word == b"null" else word.decode()

    def items(self, opening, closing, item):
        """Takes the marks of an array or an object, and its items by the function `item`."""
        self.enter(opening)
        self.skip(SPACE)
        while not self.next_is(closing):
            item()
            self.skip(SPACE)
            if not self.next_is(closing):
                self.take(b",")
                self.skip(SPACE)
                if self.next_is(closing):
                    raise Fault("NotJson", self.at)
        self.leave(closing)

    def object(self, outer):
        """Takes an object. Its members get names that are joined to the outer one."""
        self.items(b"{", b"}", lambda: self.member(outer))

    def member(self, outer):
        name = self.string()
        name = name if outer is None else outer + "." + name
        self.skip(SPACE)
        self.take(b":")
        self.skip(SPACE)
        if self.next_is(b"{"):
            self.object(name)
        elif self.next_is(b"["):
            parts = []
            self.inner(parts)
            self.members.append((name, b"".join(parts).decode("utf-8")))
        else:
            self.members.append((name, self.scalar()))

    def inner(self, parts):
        """Takes a value in an array, and appends it as it is spelled, without white space between its parts."""
        if self.next_is(b"["):
            self.joined(parts, b"[", b"]", lambda: self.inner(parts))
        elif self.next_is(b"{"):
            self.joined(parts, b"{", b"}", lambda: self.inner_member(parts))
        else:
            start = self.at
            self.scalar()
            parts.append(self.line[start : self.at])

    def inner_member(self, parts):
        start = self.at
        self.string()
        parts.append(self.line[start : self.at] + b":")
        self.skip(SPACE)
        self.take(b":")
        self.skip(SPACE)
        self.inner(parts)

    def joined(self, parts, opening, closing, item):
        """Takes an array or an object, and appends it with commas between its items."""
        parts.append(opening)
        first = len(parts)

        def with_comma():
            if len(parts) > first:
                parts.append(b",")
            item()

        self.items(opening, closing, with_comma)
        parts.append(closing)


def text_of(units):
    """Returns the text of characters and of numbers of UTF-16, where half of a pair without the other is U+FFFD."""
    text, place = "", 0
    while place < len(units):
        unit, other = units[place], units[place + 1] if place + 1 < len(units) else None
        place += 1
        if isinstance(unit, str):
            text += unit
        elif 0xD800 <= unit < 0xDC00 and isinstance(other, int) and 0xDC00 <= other < 0xE000:
            text += chr(0x10000 + (unit - 0xD800) * 0x400 + other - 0xDC00)
            place += 1
        else:
            text += "\ufffd" if 0xD800 <= unit < 0xE000 else chr(unit)
    return text


def fields_of(line):
    """Returns the fields of a line. Raises `NotUtf8`, `NotObject`, `TooDeep` or `NotJson`."""
    try:
        line.decode("utf-8")
    except UnicodeDecodeError as error:
        raise Fault("NotUtf8", error.start)
    reader = Reader(line)
    reader.skip(SPACE)
    if not reader.next_is(b"{"):
        raise Fault("NotObject")
    reader.object(None)
    reader.skip(SPACE)
    if reader.at < len(line):
        raise Fault("NotJson", reader.at)
    fields = {}
    for name, value in reader.members:
        set_field(fields, name or "_msg", value)
    return fields
