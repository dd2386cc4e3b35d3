"""The fields of lines of JSON, or their faults."""
from faults import Fault
from jsonlines import fields_of
from values import in_order

SPACES = ("", "", " ", "\t", "\r", "  ")
NAMES = (
    "a", "b", "a.b", "", "_msg", "é", "日", "\\u0061", "\\u00e9", "a\\n", "_time",
    "long name of more than a few bytes",
)  # fmt: skip
STRINGS = (
    "", "x", "é日🙂", "\\u0000", "\\ud83d\\ude00", "\\ud83d", "\\ude00", "\\ud83d\\ud83d\\ude00", "\\uD83Dx\\uDE00",
    "\\ud83d\\n", "\\b\\f\\n\\r\\t\\/\\\\\\\"", "\x7f", "\\uFFFF", "\\ufffd\\u2028", "v" * 300,
)  # fmt: skip
NUMBERS = ("0", "-0", "1.50", "1E5", "-0.5e+10", "123456789012345678901234567890", "1e-400", "0.0", "9e0")
WRONG = (
    "01", "1.", ".5", "+1", "-", "1e", "1e+", "tru", "True", "nul", "NaN", '"\\x"', '"\\u12"', '"\x01"', "'x'", "",
    "[1,]", "{,}", "[,]", '{"a"}', '{"a":}', '{"a":1,}', "[1 2]", "//", '"open',
)  # fmt: skip


BYTES = (b"", b'"', b"\\", b",", b":", b"{", b"}", b"[", b"]", b"0", b"\x00", b"\x80", b"\xc3", b"\xed\xa0\x80", b"\xf5")


def answers(stdin):
    return b"".join(answer(line).encode("utf-8") + b"\n" for line in stdin.split(b"\n"))


def answer(line):
    if line.startswith(b"run "):
        return str(plain_length(line[4:]))
    # each check of the program holds
    if line.startswith(b"check "):
        return "true"
    try:
        return "".join(f"{name}={value};" for name, value in in_order(fields_of(line)))
    except Fault as fault:
        return str(fault)


def plain_length(run):
    """Returns how many bytes stand before the first one that does not stand for itself in a string."""
    return next((at for at, byte in enumerate(run) if byte < 32 or byte in b'"\\'), len(run))


def space(random):
    return random.choice(SPACES)


def value(random, depth):
    kind = random.random()
    if depth and kind < 0.2:
        return object_text(random, depth - 1)
    if depth and kind < 0.4:
        items = [space(random) + value(random, depth - 1) + space(random) for _ in range(random.randint(0, 3))]
        return "[" + (",".join(items) or space(random)) + "]"
    if kind < 0.7:
        return '"' + random.choice(STRINGS) + '"'
    return random.choice(NUMBERS + ("true", "false", "null"))


def object_text(random, depth):
    members = []
    for _ in range(random.randint(0, 4)):
        name = f'{space(random)}"{random.choice(NAMES)}"{space(random)}'
        members.append(f"{name}:{space(random)}{value(random, depth)}{space(random)}")
    return "{" + (",".join(members) or space(random)) + "}"


def changed(random, line):
    """Returns a line with a byte removed, put in or changed, or cut off, or with a wrong value in place of one."""
    at = random.randint(0, len(line))
    if random.random() < 0.3:
        return line[:at] + random.choice(WRONG).encode() + line[min(at + 1, len(line)) :]
    return line[:at] + random.choice(BYTES) + random.choice((line[at + 1 :], line[at:], b""))


def nested(depth, opening, closing):
    return '{"a":' + opening * depth + "1" + closing * depth + "}"


def cases(random):
    lines = [b"", b" ", b"{", b"}", b"{}", b"[]", b"null", b"{} x", b"\xef\xbb\xbf{}", b"\xff", b"x\xff"]
    lines += [f'{{"a":{wrong}}}'.encode() for wrong in WRONG]
    for depth in (1, 62, 63, 64, 65, 200):
        for opening, closing in (("[", "]"), ('{"b":', "}"), ('[{"b":', "}]"), ('{"b":[', "]}")):
            lines.append(nested(depth // len(closing), opening, closing).encode())
        lines += [b'{"a":' + b"[" * depth, b"[" * depth, b'{"a":' * depth, b'{"a":' * depth + b"x"]
    for _ in range(200):
        line = (space(random) + object_text(random, 3) + space(random)).encode()
        lines += [line, changed(random, line), changed(random, changed(random, line))]
    for _ in range(40):
        run = bytes(random.randrange(256) for _ in range(random.randrange(50)))
        lines.append(b"run " + random.choice((b"", b"plain")) * 9 + run)
    return b"\n".join(line.replace(b"\n", b"") for line in lines)
