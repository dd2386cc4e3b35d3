"""Numbers and texts at the front of bytes (docs/BYTES.md): what is read, or how many bytes are left from the damaged
item on, and where two runs of bytes differ.

A padded number is a byte and a byte of 0, a format that the crate has for itself: `padded` reads bytes that are
nothing but one, which is at most a given number, and `window` one in exactly n bytes.
"""
from byte_items import Damaged, Items, bytes_of, check_spelling, cut_once, number_or
from chance import lines_of, table

SIZES = {"u8": 1, "u16": 2, "u32": 4, "u64": 8, "i64": 8, "text16": 2, "text32": 4, "u32s": 4, "u64s": 8, "i64s": 8}


def answers(stdin):
    return table(map(answer, lines_of(stdin)))


def answer(line):
    call, rest = cut_once(line, " ")
    if rest is None:
        return "no call"
    count, digits = cut_once(rest, " ")
    if digits is None:
        count, digits = "0", rest
    count, data = number_or(count, 0, 2**64), bytes_of(digits)
    if call == "padded":
        return padded(data, count)
    if call == "window":
        return window(data, count)
    if call not in SIZES:
        return difference(data[:count], data[count:])
    items = Items(data)
    try:
        read = read_items(items, call, count)
    except Damaged as fault:
        return f"Left({len(data) - fault.at})"
    return f"{read} behind {len(items.rest())}" + (" true" if call[-1] == "s" or "text" in call else "")


def read_items(items, call, count):
    """Returns what a call reads. A list of numbers is one of items, of which each may be damaged."""
    size = SIZES[call]
    if call.startswith("text"):
        return items.text(size)
    take = items.signed if call.startswith("i") else items.unsigned
    return [take(size) for _ in range(count)] if call.endswith("s") else take(size)


def padded(data, most):
    items = Items(data)
    try:
        number, _, _ = items.unsigned(1), items.unsigned(1), items.end()
        if number > most:
            raise Damaged(0)
        check_spelling(items, bytes([number, 0]))
    except Damaged as fault:
        return f"Damaged {{ at: {fault.at} }}"
    return str(number)


def window(data, length):
    """Reads a padded number, of which the second byte may be another one, in exactly `length` bytes."""
    items = Items(data[:length])
    try:
        number, _ = items.unsigned(1), items.unsigned(1)
        if items.at < length:
            raise Damaged(items.at)
    except Damaged as fault:
        return f"Left({len(data) - fault.at})"
    return f"{number} behind {len(data) - length}"


def difference(left, right):
    for place, (a, b) in enumerate(zip(left, right)):
        if a != b:
            return f"differ at {place}"
    return "one begins the other"


def cases(random):
    lines = ["u8 ", "text16 ", "text32 ", "u64s 0 ", "i64s 4294967295 ", "differ 0 "]
    texts = ["", "a", "é", "日本", "\U0001f600", "x" * random.randrange(200), "ż" * random.randrange(100)]
    for value in texts:
        data, more = value.encode("utf-8"), random.randbytes(random.randrange(4))
        for size in (2, 4):
            whole = len(data).to_bytes(size, "little") + data
            lines += [f"text{8 * size} {(whole[:cut]).hex()}" for cut in range(min(len(whole), 40))]
            lines += [f"text{8 * size} {(whole + more).hex()}"]
            lines += [f"text{8 * size} {(whole[:-1] + bytes([byte])).hex()}" for byte in (0x80, 0xC0, 0xFF)]
    for call in ("u8", "u16", "u32", "u64", "i64"):
        lines += [f"{call} {random.randbytes(random.randrange(11)).hex()}" for _ in range(12)]
        lines += [f"{call} {(byte * SIZES[call]).hex()}" for byte in (b"\0", b"\x7f", b"\x80", b"\xff")]
    for call in ("u32s", "u64s", "i64s"):
        for count in (0, 1, 2, 3, random.randrange(9), 2**32 - 1):
            lines += [f"{call} {count} {random.randbytes(random.randrange(40)).hex()}" for _ in range(4)]
    for _ in range(30):
        same, left, right = (bytes(random.choices(b"ab", k=random.randrange(5))) for _ in range(3))
        lines.append(f"differ {len(same + left)} {(same + left + same + right).hex()}")
    return table(lines)
