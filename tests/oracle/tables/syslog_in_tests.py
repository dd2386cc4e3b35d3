"""The messages of syslog and their fields, and the frames of streams."""
from chance import lines_of, table
from faults import Fault
import re
from syslog import frames, read_message
from values import in_order

LONGEST = 400  # of more bytes than these only the number is written
NUMBERS = {"BadLength": 1, "TooLong": 2, "Cut": 3}


def answers(stdin):
    return table(map(answer, lines_of(stdin)))


def answer(line):
    kind, _, rest = line.partition(" ")
    if kind == "message":
        return message_answer(bytes_of(rest))
    return frames_answer(rest.split(" ")) if kind == "frames" else "no such case"


def message_answer(message):
    try:
        time, fields = read_message(message)
    except Fault as fault:
        return str(fault)
    shown = (f"{spelled(name.encode())}={spelled(value.encode())}" for name, value in in_order(fields))
    return " ".join(["nil" if time is None else str(time), *shown])


def frames_answer(pieces):
    """Returns what comes for each piece of a stream: what the bytes so far give, without what came before."""
    data, known, ended, text = b"", 0, None, ""
    for piece in pieces:
        if ended:
            text += ended + ";"
            continue
        data += b"" if piece == "." else bytes_of(piece)
        messages, fault = frames(data, piece == ".")
        text += "".join(f"[{spelled(message)}]" for message in messages[known:]) + (f"{fault};" if fault else ";")
        known = len(messages)
        if fault:
            ended = f"Ended {NUMBERS[fault.name]} at {fault.at}"
        elif piece == ".":
            ended = f"Ended 0 at {len(data)}"
    return text


def bytes_of(text):
    """Returns the bytes of a text in which `\\0a;` is one byte, and `\\61x5;` five of the same."""
    return re.sub(rb"\\([0-9a-f]{2})(?:x([0-9]+))?;", lambda m: bytes([int(m[1], 16)]) * int(m[2] or 1), text.encode())


def spelled(data):
    if len(data) > LONGEST:
        return f"({len(data)} bytes)"
    return "".join(chr(byte) if 33 <= byte <= 126 and byte != 92 else f"\\{byte:02x};" for byte in data)


def spelled_case(data):
    """Returns bytes as they stand in a case."""
    return "".join(chr(byte) if 33 <= byte <= 126 and byte != 92 else f"\\{byte:02x};" for byte in data)


# parts of messages, most of them right, and some near misses
PRI = (b"<0>", b"<13>", b"<191>", b"<192>", b"<013>", b"<>", b"<1", b"13>", b"<-1>", b"<1000>", b"")
STAMPS = (
    b"-", b"2003-10-11T22:14:15.003Z", b"2003-10-11T22:14:15+02:00", b"2024-02-29T00:00:00.123456789-11:30",
    b"1970-01-01T00:00:00Z", b"2262-04-11T23:47:16.854775807Z",
    b"2023-02-29T00:00:00Z", b"2003-10-11t22:14:15Z", b"2003-10-11T22:14:15", b"2003-10-11T22:14:15.Z",
    b"1969-12-31T23:59:59Z",
    b"2262-04-11T23:47:16.854775808Z", b"2003-10-11T24:00:00Z", b"", b"1714557600",
)  # fmt: skip
DATA = (
    b"-", b"[a]", b'[a b="c"]', b'[a b="c"][d e="f" e="g"]', b'[a b="\\"\\\\\\]\\n"]', b'[a b=""]',
    b'[a b="\xc3\xa9\xff"]', b"[" + b"i" * 32 + b" " + b"n" * 32 + b'="v"]', b'[a b="]"]', b"[]", b'[a b="c" ]',
    b'[a  b="c"]', b"[a b=c]", b'[a b="c"', b'[a b="c\\"]', b'[a="b"]', b'[a b="x y"]', b"", b"x", b"--",
    b'[a b="1"b="2"]', b"[" + b"i" * 32 + b"]", b"[" + b"i" * 33 + b"]", b"[a " + b"n" * 32 + b'="v"]',
    b"[a " + b"n" * 33 + b'="v"]',
)  # fmt: skip
TEXTS = (
    b"", b" ", b" hi", b" \xef\xbb\xbfhi", b" \xef\xbb", b"  two", b" \xff\xfe", b" a\x00b", b" \xe2\x82",
    b" \xc3\xa4", b" line\n", b" \xed\xa0\x80",
)  # fmt: skip


def mostly(random, right, others):
    """Returns one of the right parts most times."""
    return random.choice(right if random.random() < 0.93 else others)


def header_part(random, longest):
    """Returns a part of at most `longest` bytes, or a near miss."""
    right = (b"-", b"~!", b"n" * random.randint(1, 9), b"n" * longest)
    return mostly(random, right, (b"", b"n" * (longest + 1), b"a\x7f", b"\xc3\xa4"))


def message(random):
    head = mostly(random, PRI[:3], PRI) + mostly(random, (b"1",), (b"0", b"2", b"01", b""))
    parts = [head, mostly(random, STAMPS[:6], STAMPS)]
    parts += [header_part(random, longest) for longest in (255, 48, 128, 32)]
    whole = b" ".join(parts) + b" " + random.choice(random.choice((DATA[:8], DATA))) + mostly(random, TEXTS, (b"x", b"-"))
    return whole if random.random() < 0.95 else whole[: random.randint(0, len(whole))]


BODIES = (b"", b"a", b"hello world", b"a\r", b"\r\n", b"12", b"<13>1 - - - - - -", b"\xff\x00", b"x" * 65536)


def stream(random):
    """Returns the bytes of a few frames, of which some are wrong."""
    data = b""
    for _ in range(random.randint(0, 5)):
        body = random.choice(BODIES)
        count = str(len(body) or 1).encode()
        counted = count + b" " + (body or b"a")
        wrong = random.choice((count, count + b"x", b"0" + counted, b"65537 ", b"65536"))
        data += random.choice((counted, counted, body + b"\n", body + b"\r\n", b"\n", wrong))
    return data


def cut(random, data):
    """Returns a stream in pieces as they stand in a case. Long runs of one byte stand as a count."""
    places = sorted(random.randint(0, len(data)) for _ in range(random.randint(0, 4)))
    pieces = [data[a:b] for a, b in zip([0, *places], [*places, len(data)])]
    shown = (re.sub("x{9,}", lambda run: f"\\78x{len(run[0])};", spelled_case(piece)) for piece in pieces)
    return " ".join([*shown, *random.choice(([], ["."], ["."], [".", "."], [".", "a"]))])


def cases(random):
    lines = ["message ", "frames ", "frames .", "frames . .", "frames 1 . a"]
    for _ in range(250):
        lines.append("message " + spelled_case(message(random)))
        lines.append("frames " + cut(random, stream(random)))
    return table(lines)
