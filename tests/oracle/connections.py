"""Connections over a log that is empty before (docs/HTTP.md): what is written, and how they end.

Read in another way a connection gives the same; one of which a read or a write fails ends there. The program says
nothing of that where it is so.
"""
from sessions import HttpSession, Log
from spelling import case_of, spelled, unspelled
from tables.http_in_tests import chunks, damaged

TIMES, SHOWN = (5, 6, 7), 12
LONGEST = 4000  # of more bytes only the number is written


def answer(line):
    name, count, first, last = (line.split(" | ", 3) + ["", "", ""])[:4]
    data = unspelled(first) * (int(count) if count.isdigit() else 1) + unspelled(last)
    return f"{name} | {told(HttpSession(Log(), data, TIMES))}"


def told(session):
    """Returns what was written, the first turns, and how the session ended."""
    turns = "".join(f" at {now} with {front}, 0 settled;" for now, front in session.turns[:SHOWN])
    return f"{spelled(session.written, LONGEST)}{turns} {len(session.turns)} turns, {session.end}"


LINES = (
    '{"_msg":"a b","app":"x"}', '{"_msg":"error","n":7,"app":"y"}', '{"n":"9223372036854775807"}', "x", "", " ", "[]",
    "{}", '{"_time":1714557600,"_msg":"a","n":6}', '{"_time":"2024-05-01T10:00:00Z","_msg":"é"}',
    '{"_time":"x"}', '{"a":{"b":null,"c":[1, 2]}}', '{"a":',
)  # fmt: skip
QUERIES = (
    "*", "a", "error", "n:>5", '{app="x"}', "* | stats count() as n", "* | stats sum(n) as s", "* | fields _msg",
    "a b)", "~%22(%22", "", "* | limit 1", "_time:1s", "app:in(x,y) | sort by (app desc)", "* | stats by (n) count()",
)  # fmt: skip
OPTIONS = ("", "?_stream_fields=app", "?extra_fields=app%3Dz&_msg_field=a.c", "?ignore_fields=app", "?extra_fields=x")
REST = ["GET /status", "GET /health", "HEAD /health", "GET /x", "POST /status", "DELETE /insert/jsonline"]


def request(random):
    """Returns the bytes of a request that inserts, asks, or does neither."""
    end = random.choice(["\r\n"] * 8 + ["\r\nConnection: close\r\n"])
    kind = random.randrange(3)
    if kind == 0:
        body = "\n".join(random.choices(LINES, k=random.randrange(5))) + random.choice(["", "\n"])
        size = len(body.encode("utf-8"))
        first = f"POST /insert/jsonline{random.choice(OPTIONS)} HTTP/1.1"
        return f"{first}\r\nContent-Length: {size}{end}\r\n{body}".encode("utf-8")
    if kind == 1:
        query = random.choice(QUERIES).replace(" ", "+")
        more = random.choice(["", "", "", "&limit=1", "&timeout=1s"])
        version = random.choice(["1.1"] * 5 + ["1.0"])
        return f"GET /select/logsql/query?query={query}{more} HTTP/{version}{end}\r\n".encode("utf-8")
    return f"{random.choice(REST)} HTTP/1.1{end}\r\n".encode("utf-8")


OTHER = ["GET /status", "GET /health", "HEAD /status", "PUT /insert/jsonline", "GET /x?y", "GET /select/logsql/query"]
ENDS = (b"GET /status HTTP/1.0\r\n\r\n", b"GET /status HTTP/1.1\r\n", b"what\r\n\r\n", b"")


def open_request(random):
    """Returns the bytes of a request that leaves the connection open, some with a body in chunks."""
    kind = random.randrange(4)
    if kind == 0:
        return f"{random.choice(OTHER)} HTTP/1.1\r\nHost: a\r\n\r\n".encode()
    if kind == 1:
        query = random.choice(QUERIES).replace(" ", "+")
        return f"GET /select/logsql/query?query={query} HTTP/1.1\r\n\r\n".encode()
    body = "\n".join(random.choices(LINES, k=random.randrange(6))).encode()
    path = "/insert/jsonline" + random.choice(OPTIONS)
    if kind == 2:
        return f"POST {path} HTTP/1.1\r\nTransfer-Encoding: chunked\r\n\r\n".encode() + chunks(random, body)
    return f"POST {path} HTTP/1.1\r\nContent-Length: {len(body)}\r\n\r\n".encode() + body


def cases(random):
    """Returns the lines of a table of other connections."""
    one, last = case_of(b"GET /health HTTP/1.1\r\n\r\n"), case_of(b"GET /status HTTP/1.0\r\n\r\n")
    lines = [f"{count} and a last one | {count} | {one} | {last}" for count in (0, 1, 998, 999, 1000)]
    insert = case_of(b'POST /insert/jsonline HTTP/1.1\r\nContent-Length: 9\r\n\r\n{"a":"b"}')
    lines.append(f"many inserts | 300 | {insert} | {last}")
    for n in range(120):
        data = b"".join(request(random) for _ in range(random.randint(1, 4)))
        lines.append(f"case {n} | 1 | {case_of(data)} | ")
        if n % 4 == 0:
            lines.append(f"cut {n} | 1 | {case_of(data[: random.randrange(len(data))])} | ")
            lines.append(f"damaged {n} | 1 | {case_of(damaged(random, data))} | ")
    for n in range(25):
        data = b"".join(open_request(random) for _ in range(8)) + random.choice(ENDS)
        lines.append(f"eight {n} | 1 | {case_of(data)} | ")
    return lines
