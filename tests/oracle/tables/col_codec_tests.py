"""Columns of integers and of texts (docs/BYTES.md): their bytes, what bytes say, and what a column at the front of
other bytes says. A column that is taken from the front may have another spelling, and is written in the one.

For a line `masks` the program compares the masks of its own columns with a plain comparison, and says so. What is
computed is how many integers it has between the two of the line.
"""
from byte_items import Damaged, Items, bytes_of, check_spelling, cut_once, damaged_copies, number_or
from chance import lines_of, table
from columns import fitting, put_integers, put_texts, take_integers, take_texts

ROOM = 1048576  # more bytes of texts are left out
# integers at the ends of what 1, 2, 4 and 8 bytes hold
EDGES = (0, 2**8 - 1, 2**8, 2**16 - 1, 2**16, 2**32 - 1, 2**32, -(2**63), 2**63 - 1)


def answers(stdin):
    return table(map(answer, lines_of(stdin)))


def answer(line):
    call, rest = cut_once(line, " ")
    rest = rest or ""
    if call == "masks":
        return masks(*map(int, rest.split(" ")))
    rows, digits = cut_once(rest, " ")
    rows, data = number_or(rows, 0), bytes_of(digits or "")
    if call == "ints":
        values = integers_of(rest)
        return put_integers(values).hex() + listed(values) * 2
    if call == "texts":
        values = fitting(rest, ROOM)
        return put_texts(values).hex() + listed(values) * 2
    if call not in ("read-ints", "read-texts", "take-ints", "take-texts"):
        return "no call"
    take, put = (take_integers, put_integers) if call.endswith("ints") else (take_texts, put_texts)
    return (read if call.startswith("read") else taken)(data, rows, take, put)


def masks(least, most):
    """Counts the edges and the integers beside them that lie between these two."""
    beside = (max(-(2**63), min(edge + step, 2**63 - 1)) for edge in EDGES for step in (-1, 0, 1))
    return f"alike with {sum(least <= value <= most for value in beside)} edges"


def read(data, rows, take, put):
    """Reads bytes that are nothing but a column."""
    items = Items(data)
    try:
        values = take(items, rows)
        items.end()
        check_spelling(items, put(values))
    except Damaged as fault:
        return f"damaged at {fault.at}"
    return listed(values)


def taken(data, rows, take, put):
    """Takes a column from the front of bytes, and puts it after the others."""
    items = Items(data)
    try:
        values = take(items, rows)
    except Damaged as fault:
        return f"damaged {len(data) - fault.at} ahead of the end"
    return (items.rest() + put(values)).hex() + listed(values)


def integers_of(line):
    """Returns the integers of a list; what is no i64 is left out."""
    values = []
    for word in line.split(","):
        digits = word[1:] if word[:1] in ("+", "-") else word
        if digits.isascii() and digits.isdigit() and -(2**63) <= int(word) < 2**63:
            values.append(int(word))
    return values


def listed(values):
    return f" [{','.join(map(str, values))}]"


def cases(random):
    lines = ["ints ", "texts ", "read-ints 0 ", "read-texts 0 ", "take-texts 4294967295 00000000", "take-ints 2 0300"]
    ends = [edge + step for edge in EDGES for step in (-1, 0, 1) if -(2**63) <= edge + step < 2**63]
    lines += [f"masks {least} {most}" for least, most in (sorted(random.sample(ends, 2)) for _ in range(20))]
    integers = [[], [0], [-(2**63), 2**63 - 1], [2**63 - 1] * 3]
    for width in (1, 2, 4, 8):
        least = random.randrange(-(2**63), 2**63 - 256**width + 1) if width < 8 else -(2**63)
        edge = random.choice([256**width - 1, 256 ** (width // 2)])
        integers.append([least + random.randrange(edge) for _ in range(3)] + [least, least + edge])
    for values in integers:
        data = put_integers(values)
        lines.append("ints " + ",".join(map(str, values)))
        lines += [f"read-ints {len(values)} {copy.hex()}" for copy in damaged_copies(data, random, 20)]
        lines += [f"{call} {rows} {(data + random.randbytes(3)).hex()}" for call in ("read-ints", "take-ints")
                  for rows in (len(values), len(values) + 1, max(len(values) - 1, 0))]
        # a width that is wider than needed
        if values and data[0] < 8:
            wide = bytes([8]) + data[1:9] + b"".join((value - min(values)).to_bytes(8, "little") for value in values)
            lines += [f"{call} {len(values)} {wide.hex()}" for call in ("read-ints", "take-ints")]
    alphabet = ["", "a", "é", "日本", "\U0001f600", "-1", "x" * random.randrange(300)]
    lists = [[""], ["", ""], *(random.choices(alphabet, k=random.randrange(1, 6)) for _ in range(5))]
    for values in lists:
        data = put_texts(values)
        lines.append("texts " + ",".join(values))
        lines += [f"read-texts {len(values)} {copy.hex()}" for copy in damaged_copies(data[:60], random, 20)]
        lines += [f"take-texts {len(values)} {copy.hex()}" for copy in damaged_copies(data, random, 10)[-12:]]
    return table(lines)
