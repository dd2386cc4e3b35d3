"""What requests ask for, and the replies to those that are refused (docs/HTTP.md)."""
from chance import lines_of, table
from faults import Fault
from http_replies import METHODS, Refusal, delivered, reply_to_fault, wanted
from http_requests import QUERY_PATH, requests_of
from spelling import case_of, spelled, unspelled
from rows import Options


def answers(stdin):
    return table(map(answer, lines_of(stdin)))


def answer(line):
    name, _, data = line.partition(" | ")
    return f"{name} | {asked(unspelled(data))}"


def asked(data):
    requests, fault = requests_of(data)
    if requests:
        return request_text(requests[0])
    if fault is None:
        return "no request"
    return spelled(reply_to_fault(fault)) or "no reply"


def request_text(request):
    try:
        want = wanted(request)
    except Refusal as refusal:
        return spelled(delivered(refusal.reply, request))
    if isinstance(want, Options):
        return options_text(want)
    return request.path[1:] if want is None else f"query {spelled(want.encode('utf-8'))}"


def options_text(options):
    def listed(names):
        return "".join(f" {spelled(name.encode('utf-8'))}" for name in names)

    fields = "".join(f"{listed([name])}={spelled(value.encode('utf-8'))}" for name, value in options.extra_fields)
    said = f"insert, streams{listed(options.stream_fields)}, time{listed([options.time_field])}"
    said += f", messages{listed(options.message_fields)}, ignored{listed(options.ignored_fields)}"
    return f"{said}, extra{fields}"


PATHS = [*METHODS, *METHODS, "/", "/status/", "/Health", "/%73tatus", "*", "/insert/jsonline/", "/select/logsql", "/é"]
NAMES = ("query", "query", "limit", "start", "end", "offset", "timeout", "Query")
NAMES += ("_stream_fields", "_time_field", "_msg_field", "ignore_fields", "extra_fields", "extra_fields")
VALUES = ("", "a", "*", "a,b", ",a,,b,", "a=b", "a=b,c=", "=b", "a=", "a=b=c", "é", "a+b", "%2C", "%ff", "a%3Db")
TYPES = ([], [b"Content-Type: application/x-www-form-urlencoded"], [b"Content-Type: text/plain"])
MORE = ([], [], [], [b"Connection: close"], [b"Content-Encoding: gzip"], [b"Content-Length: x"])


def some_arguments(random):
    pairs = [f"{random.choice(NAMES)}={random.choice(VALUES)}" for _ in range(random.randrange(4))]
    return "&".join(pairs + random.choice([[], [], ["query"], ["query=x"]]))


def cases(random):
    lines = []
    for n in range(300):
        path, query = random.choice(PATHS), some_arguments(random)
        method = random.choice(["GET", "GET", "POST", "POST", "HEAD", "PUT", "get"])
        body = some_arguments(random).encode("utf-8") if path == QUERY_PATH else b""
        headers = [b"Content-Length: %d" % len(body)] if body else []
        headers += random.choice(TYPES) + random.choice(MORE)
        target = path + random.choice(["?", "?", "?", ""]) + query
        first = f"{method} {target} HTTP/1.{random.choice('1110')}".encode("utf-8")
        data = b"\r\n".join([first, *headers, b"", body])
        lines.append(f"case {n} | {case_of(data)}")
    return table(lines)
