"""Replies to HTTP requests (docs/HTTP.md)."""
from faults import Fault
from http_requests import QUERY_PATH
from rows import Options

TEXT, JSON, LINES = "text/plain; charset=utf-8", "application/json", "application/stream+json"
METHODS = {"/insert/jsonline": ("POST",), QUERY_PATH: ("GET", "POST"), "/status": ("GET",), "/health": ("GET",)}
REASONS = {
    200: "OK",
    400: "Bad Request",
    404: "Not Found",
    405: "Method Not Allowed",
    413: "Content Too Large",
    415: "Unsupported Media Type",
    422: "Unprocessable Content",
    503: "Service Unavailable",
    507: "Insufficient Storage",
}
# the codes of the faults of reading that get a reply
FAULTS = {"BadHead": 400, "HeadLarge": 400, "BadLength": 400, "BadChunk": 400, "BodyLarge": 413, "Coding": 415}
REFUSED_ARGUMENTS = ("limit", "start", "end", "offset")


class Reply:
    """A status and a body. A reply of 405 says which methods a path has."""

    def __init__(self, code, body, kind=TEXT, methods=()):
        self.code, self.body, self.kind, self.methods = code, body, kind, methods

    def to_bytes(self, closes=False, bare=False):
        """Returns the bytes of a reply, after which the connection may end. A bare one, to HEAD, has no body."""
        body = self.body.encode("utf-8")
        lines = [f"HTTP/1.1 {self.code} {REASONS[self.code]}"]
        lines += [f"Allow: {', '.join(self.methods)}"] if self.code == 405 else []
        lines += [f"Content-Type: {self.kind}"]
        lines += [] if bare else [f"Content-Length: {len(body)}"]
        lines += ["Connection: close"] if closes else []
        return "".join(line + "\r\n" for line in lines + [""]).encode("ascii") + (b"" if bare else body)


class Refusal(Exception):
    """A request that asks for nothing that is done."""

    def __init__(self, code, text, methods=()):
        super().__init__(code, text)
        self.reply = Reply(code, text + "\n", methods=methods)


def wanted(request):
    """Returns what a request asks for: `Options` of an insert, the text of a query, or nothing at other paths.

    Raises a `Refusal`: of the path, of the method, or of the first argument that is wrong.
    """
    if request.path not in METHODS:
        raise Refusal(404, "no such path")
    if request.method not in METHODS[request.path]:
        raise Refusal(405, "no such method", METHODS[request.path])
    if request.path == "/insert/jsonline":
        try:
            return Options(request.arguments)
        except Fault:
            raise Refusal(400, "BadArgument extra_fields")
    if request.path != QUERY_PATH:
        return None
    if request.argument("query") is None:
        raise Refusal(400, "BadArgument query")
    for name in REFUSED_ARGUMENTS:
        if request.argument(name) is not None:
            raise Refusal(400, f"BadArgument {name}")
    return request.argument("query")


def reply_to_fault(fault):
    """Returns the reply to a fault of reading, after which the connection ends. `Cut` gets none."""
    if fault.name not in FAULTS:
        return b""
    return Reply(FAULTS[fault.name], fault.name + "\n").to_bytes(closes=True)


def delivered(reply, request, last=False):
    """Returns the bytes of the reply to a request, after which the connection may end for another reason too."""
    return reply.to_bytes(closes=request.last or last, bare=request.method == "HEAD")
