"""The filter of the words of values (docs/BYTES.md, "Bloom filter" and "Block"): its bytes, and how bytes are read.

The words of the two longest lines share a slot of the table in which the code keeps recent words. How it works inside
changes no answer.
"""
from byte_items import Damaged, Items, bytes_of, cut_once, damaged_copies, number_or
from chance import lines_of, table
from columns import column_filter, fitting, put_filter, take_filter

ROOM = 4194304  # more bytes of values are left out


def answers(stdin):
    return table(map(answer, lines_of(stdin)))


def answer(line):
    if line.startswith("read "):
        return read(bytes_of(line[5:]))
    if line.startswith("again "):
        times, rest = cut_once(line[6:], " ")
        rest = times if rest is None else rest
        line = ",".join([rest] * max(number_or(times, 0), 1))
    return shown(fitting(line, ROOM))


def shown(values):
    data = put_filter(column_filter(values))
    return f"{data.hex()} {read(data)}"


def read(data):
    items = Items(data)
    try:
        count = take_filter(items)
    except Damaged as fault:
        return f"{len(data) - fault.at} bytes from the damaged item on"
    return f"{count} words, {len(items.rest())} bytes after it"


ALPHABET = ["a", "b", "_", "7", "é", "ß", "日", "٣", "\u0301", "🙂", " ", "-", ".", "/", "=", "A"]


def cases(random):
    lines = ["", "again 0 a", "again 5 a b,c", "x" * 3000, "read ", ",".join(["a"] * 300)]
    for most in (1, 3, 8, 20, 300):
        for _ in range(25):
            sizes = (random.randrange(most) for _ in range(random.randrange(1, 8)))
            line = ",".join("".join(random.choices(ALPHABET, k=size)) for size in sizes)
            lines += [line, f"again {random.randrange(1, 9)} {line}"]
    lines += [",".join(str(random.randrange(-999, 999)) for _ in range(40)) for _ in range(5)]
    lines += [",".join(f"w{random.randrange(10**6)} of {n}" for n in range(count)) for count in (255, 256, 257, 1000)]
    data = put_filter(column_filter(["one two three four five six"]))
    lines += [f"read {copy.hex()}" for copy in damaged_copies(data, random, 10)]
    return table(lines)
