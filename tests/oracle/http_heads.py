"""The heads of HTTP requests, chunk lines and trailer sections (docs/HTTP.md and RFC 9112), byte by byte.

If the input ends inside a target that already is not UTF-8, the rules leave open whether that is `BadHead` or `Cut`.
If the first 16,384 bytes of a head end there, it is `BadHead` or `HeadLarge`. Here UTF-8 is asked for where the target
ends, as the tables have it, so that it is `Cut` or `HeadLarge`. No case of a second table asks it.
"""
from faults import Fault

HEAD, LINES, CHUNK_LINE = 16384, 100, 16384
DIGITS = 16
LETTERS = b"abcdefghijklmnopqrstuvwxyz"
TOKEN = frozenset(b"!#$%&'*+-.^_`|~0123456789" + LETTERS + LETTERS.upper())
HEXADECIMAL = frozenset(b"0123456789abcdefABCDEF")
LF, CR = b"\n\r"


class Short(Exception):
    """The bytes end before the form is whole."""


class Bad(Exception):
    """No bytes that follow make the form."""


class Bytes:
    """Reads bytes from a place on, as far as the limit of a form allows."""

    def __init__(self, data, at, limit):
        self.data, self.at, self.end = data, at, min(len(data), at + limit)

    def peek(self):
        if self.at == self.end:
            raise Short
        return self.data[self.at]

    def next(self):
        byte = self.peek()
        self.at += 1
        return byte

    def exactly(self, expected):
        for byte in expected:
            if self.next() != byte:
                raise Bad

    def line_end(self):
        """Reads CR LF, or LF."""
        if self.next() != LF:
            self.at -= 1
            self.exactly(b"\r\n")

    def while_in(self, is_part):
        """Returns the bytes up to the first that is no part."""
        start = self.at
        while is_part(self.peek()):
            self.at += 1
        return self.data[start : self.at]

    def word(self, is_part, mark):
        """Returns one part or more. The byte after them is a mark."""
        found = self.while_in(is_part)
        if not found or self.next() != mark:
            raise Bad
        return found

    def header(self):
        """Returns the name of a header line, in small letters, and its value."""
        name = self.word(lambda byte: byte in TOKEN, ord(":"))
        value = self.while_in(lambda byte: byte == 9 or (byte >= 32 and byte != 127))
        self.line_end()
        return name.lower(), value.strip(b" \t")

    def headers(self, most=LINES):
        """Returns header lines up to the empty line. Raises `HeadLarge` where a line feed ends one too many."""
        found = []
        while self.peek() not in (LF, CR):
            try:
                found.append(self.header())
            except Bad:
                if len(found) == most and self.data[self.at - 1] == LF:
                    raise Fault("HeadLarge")
                raise
            if len(found) > most:
                raise Fault("HeadLarge")
        self.line_end()
        return found


class Head:
    def __init__(self, method, target, minor, headers):
        self.method, self.target, self.minor, self.headers = method, target, minor, headers


def take_head(data, start):
    """Returns the head that begins at a place, and its end. Raises `BadHead`, `HeadLarge`, or `Short`."""
    taken = Bytes(data, start, HEAD)
    try:
        return head_of(taken), taken.at
    except Bad:
        raise Fault("BadHead", start)
    except Short:
        if taken.end == start + HEAD:
            raise Fault("HeadLarge")
        raise


def head_of(taken):
    while taken.peek() in (LF, CR):
        taken.line_end()
    method = taken.word(lambda byte: byte in TOKEN, ord(" ")).decode("ascii")
    try:
        target = taken.word(lambda byte: byte > 32 and byte != 127, ord(" ")).decode("utf-8")
    except UnicodeDecodeError:
        raise Bad
    taken.exactly(b"HTTP/1.")
    minor = taken.next() - ord("0")
    if minor not in (0, 1):
        raise Bad
    taken.line_end()
    return Head(method, target, minor, taken.headers())


def take_chunk_line(data, start):
    """Returns the size that a chunk line says, and its end. Raises `BadChunk` or `Short`."""
    taken = Bytes(data, start, CHUNK_LINE)
    try:
        return chunk_size(taken), taken.at
    except Bad:
        raise Fault("BadChunk", start)
    except Short:
        if taken.end == start + CHUNK_LINE:
            raise Fault("BadChunk", start)
        raise


def chunk_size(taken):
    digits = 0
    start = taken.at
    while taken.peek() in HEXADECIMAL:
        taken.at += 1
        digits += 1
        if digits > DIGITS:
            raise Bad
    if digits == 0:
        raise Bad
    size = int(taken.data[start : taken.at], 16)
    taken.while_in(lambda byte: byte in b" \t")
    if taken.peek() == ord(";"):
        taken.while_in(lambda byte: byte not in (CR, LF))
    taken.exactly(b"\r\n")
    return size


def take_trailers(data, start):
    """Returns the end of a trailer section. Raises `BadChunk`, `HeadLarge` or `Short`."""
    taken = Bytes(data, start, HEAD)
    try:
        taken.headers()
        return taken.at
    except Bad:
        raise Fault("BadChunk", start)
    except Short:
        if taken.end == start + HEAD:
            raise Fault("HeadLarge")
        raise
