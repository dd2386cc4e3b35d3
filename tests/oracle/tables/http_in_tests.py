"""The requests of connections, and how these end (docs/HTTP.md).

A connection that is read in any other cutting gives the same. Of a short one the table has how many of its bytes were
read when each request was there, which is where the request ends, and of a shorter one what comes where the input ends
after each byte.
"""
from chance import lines_of, table
from http_requests import QUERY_PATH, requests_of
from spelling import case_of, spelled, unspelled

SHORT, SHORTER = 40000, 250


def answers(stdin):
    return table(map(answer, lines_of(stdin)))


def answer(line):
    name, _, data = line.partition(" | ")
    data = unspelled(data)
    requests, fault = requests_of(data)
    said = f"{name} | {connection_text(requests, fault)}"
    if len(data) <= SHORT:
        said += " |" + "".join(f" {request.end}" for request in requests)
    return said + (ends_text(data) if len(data) <= SHORTER else "")


def connection_text(requests, fault):
    end = str(fault) if fault else "AskedClose" if requests and requests[-1].last else "Closed"
    return "".join(f"{request_text(request)} " for request in requests) + end


def request_text(request):
    words = [spelled(request.method.encode()), spelled(request.path.encode("utf-8"))]
    words += [f"{spelled(name.encode('utf-8'))}={spelled(value.encode('utf-8'))}" for name, value in request.arguments]
    return f"[{' '.join(words)} : {spelled(request.body)}]"


def ends_text(data):
    """Returns what comes where the input ends after n bytes, for each n, and once for those with the same result."""
    said, start, text = " |", 0, connection_text(*requests_of(b""))
    for end in range(1, len(data) + 1):
        other = connection_text(*requests_of(data[:end]))
        if other != text:
            said += f" {start}..{end}: {text};"
            start, text = end, other
    return said + f" {start}: {text}"


METHODS = ["GET", "POST", "HEAD", "PUT", "M-SEARCH", "get", "a!#"]
TARGETS = ["/", "*", "/a?b=c&d", "/é?é=%c3%a9", "/x?a=%zz&a=+", QUERY_PATH, QUERY_PATH + "?query=a", "/??", "http://a"]
HEADERS = (
    "Host: x", "a:", "Connection: close", "connection: Keep-Alive", "Content-Type: application/x-www-form-urlencoded",
    "Content-Encoding: identity", "X-Y:\tz", "a: é",
)  # fmt: skip
BAD_HEADERS = (
    "no colon", "a : b", " folded: x", "Content-Length: x", "Content-Length: 33554433", "Content-Encoding: br", "(: x",
    "Transfer-Encoding: gzip", "Content-Length: 0\r\nContent-Length: 00", "a: \x01", ":",
)  # fmt: skip


def chunks(random, body):
    """Returns a body in chunks, with extensions and trailers."""
    data, at = b"", 0
    while at < len(body):
        piece = body[at : at + random.randint(1, 5)]
        size = random.choice(["%x", "%X", "0%x", "%016x"]) % len(piece)
        data += size.encode() + random.choice([b"", b";a", b";a=b;c"]) + b"\r\n" + piece + b"\r\n"
        at += len(piece)
    return data + random.choice([b"0", b"00"]) + b"\r\n" + random.choice([b"", b"T: x\r\n"]) + b"\r\n"


def request(random):
    """Returns the bytes of a request."""
    end = random.choice([b"\r\n", b"\r\n", b"\r\n", b"\n"])
    body = bytes(random.choices(b"abc=&+%41\r\n", k=random.randrange(12)))
    lines = [header.encode("utf-8") for header in random.sample(HEADERS, random.randrange(3))]
    if random.random() < 0.4:
        lines.append(b"Transfer-Encoding: chunked")
        body = chunks(random, body)
    elif body or random.random() < 0.3:
        lines.append(b"Content-Length: %d" % len(body))
    random.shuffle(lines)
    target = random.choice(TARGETS)
    first = f"{random.choice(METHODS)} {target} HTTP/1.{random.choice('1110')}".encode("utf-8")
    return random.choice([b"", b"", b"", b"\r\n", b"\n"]) + end.join([first, *lines, b"", b""]) + body


def damaged(random, data):
    """Returns bytes of which one is removed, changed or put in, none of them beyond ASCII."""
    at = random.randrange(len(data))
    more = random.choice([b"", b" ", b"\r", b"\n", b"\0", b"x", b":", b"0", b"\x7f", b"\t", b"HTTP", b"f" * 16])
    changed = data[:at] + more + data[at + random.choice([0, 1]) :]
    return changed if is_ascii_target(changed) else data


def is_ascii_target(data):
    """Returns whether no target is broken inside a character, where the rules leave open which fault comes."""
    try:
        data.decode("utf-8")
    except UnicodeDecodeError:
        return False
    return True


def edges():
    """Returns cases at the limits of heads, chunk lines, trailer sections and bodies."""
    start, chunked = b"GET / HTTP/1.1\r\n", b"POST / HTTP/1.1\r\nTransfer-Encoding: chunked\r\n\r\n"
    for size in (16383, 16384, 16385):
        yield f"a head of {size} bytes", start + b"a:" + b"y" * (size - 22) + b"\r\n\r\n"
        yield f"{size} bytes of a head", start + b"a:" + b"y" * (size - 18)
        yield f"empty lines of {size} bytes", b"\n" * (size - 18) + start + b"\r\n" + start + b"\r\n"
        yield f"a target of {size} bytes", b"GET " + b"/" * size + b" HTTP/1.1\r\n\r\n"
        yield f"a chunk line of {size} bytes", chunked + b"3;" + b"y" * (size - 4) + b"\r\nabc\r\n0\r\n\r\n"
        yield f"a trailer section of {size} bytes", chunked + b"0\r\na:" + b"y" * (size - 6) + b"\r\n\r\n"
    for count in (99, 100, 101):
        for last in (b"", b"b\r\n", b"b\n", b"b", b"b: \x01\r\n"):
            name = f"{count} lines and {last!r}"
            yield name, start + b"b: c\r\n" * count + last + b"\r\n"
            yield "trailers, " + name, chunked + b"0\r\n" + b"b: c\r\n" * count + last + b"\r\n"
    for digits in ("7fffffff", "2000000", "2000001", "f" * 16, "f" * 17, "0" * 16, "0" * 17):
        yield f"a chunk of {digits}", chunked + digits.encode() + b"\r\n"


def cases(random):
    lines = [f"{name} | {case_of(data)}" for name, data in edges()]
    for n in range(60):
        data = b"".join(request(random) for _ in range(random.randint(1, 3)))
        lines.append(f"requests {n} | {case_of(data)}")
        lines.append(f"a cut {n} | {case_of(data[: random.randrange(len(data))])}")
        lines += [f"damaged {n} | {case_of(damaged(random, data))}" for _ in range(2)]
    for header in BAD_HEADERS:
        data = f"GET / HTTP/1.1\r\n{header}\r\n\r\n".encode("utf-8")
        lines.append(f"{header!r} | {case_of(data)}")
    return table(lines)
