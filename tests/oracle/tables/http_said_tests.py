"""What the header lines of a head say of its body and of the connection, and the arguments of forms (docs/HTTP.md)."""
from chance import lines_of, table
from faults import Fault
from http_heads import Bad, Bytes, Short
from http_requests import arguments_of, asks_close, framing, is_form
from spelling import case_of, spelled, unspelled

MOST = 10  # the program reads no more header lines in this table


def answers(stdin):
    return table(map(answer, lines_of(stdin)))


def answer(line):
    name, _, data = line.partition(" | ")
    return f"{name} | " + (form_text if name.startswith("form") else headers_text)(unspelled(data))


def form_text(form):
    pairs = [(name.encode("utf-8"), value.encode("utf-8")) for name, value in arguments_of(form)]
    return "".join(f"({spelled(name)})=({spelled(value)})" for name, value in pairs)


def headers_text(data):
    try:
        headers = Bytes(data, 0, len(data)).headers(MOST)
    except (Bad, Short, Fault):
        return "no fields"
    try:
        length = framing(headers)
        said = length if length == "chunked" else f"length {length}"
    except Fault as fault:
        said = fault.name
    said += ", a form" if is_form(headers) else ""
    return said + "".join(f", the last of 1.{minor}" for minor in (0, 1) if asks_close(headers, minor))


BODIES = ["Content-Length", "content-length", "Transfer-Encoding", "Content-Encoding", "Content-Type"]
NAMES = BODIES * 4 + ["Connection", "Connection", "Host"]
SIZES = ["0", "5", "05", "5 ", "\t5", "+5", "-0", "5, 5", "0x5", "", "٣", "5;", "5.0", "1" * 5000, "0" * 400 + "7"]
FORM = "application/x-www-form-urlencoded"
VALUES = {
    "content-length": SIZES + ["33554432", "33554433", str(2**64 - 1), str(2**64)],
    "transfer-encoding": ["chunked", "Chunked", "chunked, chunked", "gzip", "gzip, chunked", "identity", ""],
    "content-encoding": ["identity", "IDENTITY", "gzip", "", "identity, identity", "br"],
    "content-type": [FORM, FORM + ";charset=x", FORM.upper(), "text/plain", ""],
    "connection": ["close", "Close", "keep-alive", "Keep-Alive, x", "x,close", "closed", " , ,", "keep-alive,close"],
    "host": ["a", "", "x:1"],
}
PIECES = ["a", "b", "=", "&", "+", "%", "%4", "%41", "%c3%a9", "%C3", "%ff", "%zz", "é", "%00", "%26", "%3D", "%2B"]
ENDS = [b"\r\n"] * 6 + [b"\n", b"", b"\r", b"no colon\r\n\r\n", b" a: b\r\n\r\n", b": x\r\n\r\n"]


def cases(random):
    lines = [f"{count} lines | " + case_of(b"a: b\r\n" * count + b"\r\n") for count in (0, 9, 10, 11, 12)]
    for n in range(250):
        data = b""
        for _ in range(random.randrange(5)):
            name = random.choice(NAMES)
            space = random.choice(["", " ", "  ", "\t"])
            value = random.choice(VALUES[name.lower()])
            data += f"{name}:{space}{value}".encode("utf-8") + random.choice([b"\r\n", b"\r\n", b"\n"])
        lines.append(f"case {n} | {case_of(data + random.choice(ENDS))}")
    for n in range(150):
        lines.append(f"form {n} | {case_of(''.join(random.choices(PIECES, k=random.randrange(9))).encode('utf-8'))}")
    return table(lines)
