"""The columns of rows (docs/BYTES.md, "Block"): the keys, and for each name in byte order the values of the rows.

A line `row` makes a row again of its labels, its key and its fields. A line `recent` asks how the code works inside,
which no rule says: of each text, whether another one was in its slot among the texts before it. The number of a slot is
what the specification of `Recent` in `block_model` says. No second table has such a line.
"""
from blocks import names_of, numbered_of, values_of
from byte_items import cut_once
from chance import lines_of, table
from values import in_order

SLOTS = 512


def answers(stdin):
    return table(map(answer, lines_of(stdin)))


def answer(line):
    if line.startswith("row "):
        numbered = row_of(line[4:])
        return again(numbered) if numbered else "no row"
    if line.startswith("recent "):
        return recent(line[7:].split(","))
    rows = [row_of(text) for text in line.split(";")]
    if None in rows:
        return "no row"
    shown = "".join("%d %d %d " % numbered.key() for numbered in rows)
    for name in names_of(rows):
        shown += f"/ {name}" + "".join(f" [{value}]" for value in values_of(rows, name))
    return shown


def row_of(text):
    key, rest = cut_once(text, "|")
    fields, labels = cut_once(rest or "", "|")
    return numbered_of(key, fields, labels or "")


def again(numbered):
    row = numbered.row
    labels = "".join(f" {{{name}={value}}}" for name, value in in_order(row.labels))
    return "%d %d %d" % numbered.key() + labels + "".join(f" {name}={value}" for name, value in in_order(row.fields))


def recent(texts):
    slots, answer = {}, ""
    for value in texts:
        slot = slot_of(value.encode("utf-8"))
        is_new = slots.get(slot, texts[0]) != value
        slots[slot] = value
        answer += f" {value}:{str(is_new).lower()}"
    return answer


def slot_of(data):
    """Returns the slot of a text: the product of its tag and its length with a constant, cut to the first 9 bits."""
    return (tag_of(data) ^ len(data)) * 0x9E3779B97F4A7C15 % 2**64 // (2**64 // SLOTS)


def tag_of(data):
    """Returns a number of 64 bits of the first, the middle and the last bytes of a text."""
    length = len(data)
    if length >= 8:
        first, middle, last = (int.from_bytes(data[at : at + 8], "little") for at in (0, length // 2 - 4, length - 8))
        return rotated(first, 29) ^ rotated(middle, 47) ^ last
    if length >= 4:
        return int.from_bytes(data[:4], "little") * 2**32 + int.from_bytes(data[-4:], "little")
    return data[0] * 65536 + data[length // 2] * 256 + data[-1] if data else 0


def rotated(number, count):
    return (number << count | number >> (64 - count)) % 2**64


NAMES = ["a", "b", "B", "aa", "é", "日", "_msg", "_time", "_stream", "_stream_id", "", "a b", "app"]
VALUES = ["", "x", "7", "-1", "é ü", "a b", "=", "x=y", "0"]
TIMES = [0, 1, 5, 2**63 - 1, -1, 2**63, "x", ""]


def row_text(random, wide=False):
    names = random.choices(NAMES, k=random.randrange(5))
    if wide:
        names = [f"n{n}" for n in range(random.choice([999, 1000, 1001]))]
    fields = ",".join(f"{name}={random.choice(VALUES if not wide else VALUES[1:])}" for name in names)
    time = random.choice(TIMES[:4] if random.random() < 0.9 else TIMES)
    key = f"{time} {random.choice([0, 1, 2**64 - 1])} {random.choice([0, 7, 2**32 - 1])}"
    return key + "|" + fields


def cases(random):
    lines = ["", "row ", "0 0 0|", "row 0 0 0|a=1", "5 1 0|a", "5|a=1", "5 1|a=1;6|b=2"]
    lines += [f"{prefix}0 0 0|{'n' * size}=1" for size in (127, 128, 129) for prefix in ("", "row ")]
    lines += [f"row 0 0 0|a={'x' * size}|a" for size in (262142, 262143, 262144)]
    for _ in range(80):
        lines.append(";".join(row_text(random) for _ in range(random.randrange(1, 5))))
        lines.append(f"row {row_text(random)}|{','.join(random.choices(NAMES, k=random.randrange(4)))}")
    lines += [row_text(random, True) for _ in range(4)] + [f"row {row_text(random, True)}|n1,n2" for _ in range(2)]
    return table(lines)
