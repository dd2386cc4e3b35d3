"""What header lines say, and the requests of a connection (docs/HTTP.md)."""
from urllib.parse import unquote_to_bytes

from faults import Fault
from http_heads import Short, take_chunk_line, take_head, take_trailers

BODY = 33554432
FORM = b"application/x-www-form-urlencoded"
QUERY_PATH = "/select/logsql/query"


def values_of(headers, name):
    return [value for other, value in headers if other == name]


def length_of(value):
    """Returns the number of decimal digits, or None where a value has another byte or is 2^64 or more."""
    if not value.isdigit():
        return None
    digits = value.lstrip(b"0") or b"0"
    return int(digits) if len(digits) <= 20 and int(digits) < 2**64 else None


def framing(headers):
    """Returns the length of the body that header lines say, or "chunked".

    Raises `BodyLarge`, `BadLength` or `Coding`, the first of these that is so.
    """
    lengths, codings = values_of(headers, b"content-length"), values_of(headers, b"transfer-encoding")
    sizes = [length_of(value) for value in lengths]
    if any(size is not None and size > BODY for size in sizes):
        raise Fault("BodyLarge")
    if None in sizes or len(set(lengths)) > 1 or (lengths and codings):
        raise Fault("BadLength")
    if [value.lower() for value in codings] not in ([], [b"chunked"]):
        raise Fault("BadLength")
    if any(value.lower() != b"identity" for value in values_of(headers, b"content-encoding")):
        raise Fault("Coding")
    return "chunked" if codings else sizes[0] if sizes else 0


def is_form(headers):
    """Returns whether the first Content-Type says that the body is a form."""
    return (values_of(headers, b"content-type") or [b""])[0].startswith(FORM)


def asks_close(headers, minor):
    """Returns whether a request of HTTP/1.0 or HTTP/1.1 asks to close the connection."""
    fields = values_of(headers, b"connection")
    options = [option.strip(b" \t").lower() for value in fields for option in value.split(b",")]
    return b"close" in options or (minor == 0 and b"keep-alive" not in options)


def arguments_of(form):
    """Returns the names and values of a form of the URL Standard, as bytes."""
    pairs = (piece.partition(b"=") for piece in form.split(b"&") if piece)
    return [(form_text(name), form_text(value)) for name, _, value in pairs]


def form_text(piece):
    return unquote_to_bytes(piece.replace(b"+", b" ")).decode("utf-8", "replace")


class Request:
    """A request with its arguments, and the place after it."""

    def __init__(self, head, body, end):
        self.method, self.body, self.end = head.method, body, end
        self.path, _, query = head.target.partition("?")
        self.last = asks_close(head.headers, head.minor)
        self.arguments = arguments_of(query.encode("utf-8"))
        if self.method == "POST" and self.path == QUERY_PATH and is_form(head.headers):
            self.arguments += arguments_of(body)

    def argument(self, name):
        """Returns the first argument of a name, or None."""
        return next((value for other, value in self.arguments if other == name), None)


def take_request(data, start):
    """Returns the request that begins at a place. Raises its first fault."""
    try:
        head, at = take_head(data, start)
        length = framing(head.headers)
        if length == "chunked":
            return Request(head, *take_chunks(data, at))
        if at + length > len(data):
            raise Short
        return Request(head, data[at : at + length], at + length)
    except Short:
        raise Fault("Cut", start)


def take_chunks(data, at):
    """Returns the body that chunks make, and the place after the trailer section."""
    body = []
    size, at = take_chunk_line(data, at)
    while size > 0:
        if sum(map(len, body)) + size > BODY:
            raise Fault("BodyLarge")
        if at + size > len(data):
            raise Short
        body.append(data[at : at + size])
        at += size
        ending = data[at : at + 2]
        if not b"\r\n".startswith(ending):
            raise Fault("BadChunk", at)
        if len(ending) < 2:
            raise Short
        size, at = take_chunk_line(data, at + 2)
    return b"".join(body), take_trailers(data, at)


def requests_of(data):
    """Returns the requests of a connection whose input ends after these bytes, and the fault or None."""
    requests, at = [], 0
    while at < len(data) and not (requests and requests[-1].last):
        try:
            requests.append(take_request(data, at))
        except Fault as fault:
            return requests, fault
        at = requests[-1].end
    return requests, None
