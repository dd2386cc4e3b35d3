"""What the items of a block say (docs/BYTES.md, "Block"), which may be no block: the labels, the keys and the columns,
or how many bytes are left from the damaged item on. Labels and columns by themselves as bytes."""
from blocks import numbered_of, put_block, put_labels, put_named, take_parts
from byte_items import Damaged, Items, bytes_of, cut_once, damaged_copies
from chance import lines_of, table
from columns import INTEGERS, fitting

ROOM = 1048576  # more bytes of values are left out


def answers(stdin):
    return table(map(answer, lines_of(stdin)))


def answer(line):
    if line.startswith("labels "):
        names = ",".join(field.partition("=")[0] for field in line[7:].split(","))
        numbered = numbered_of("0 0 0", line[7:], names)
        return put_labels(numbered.row.labels).hex() if numbered else "no row"
    if line.startswith("column "):
        name, values = cut_once(line[7:], " ")
        if len(name.encode("utf-8")) >= 65536:
            return "too long a name"
        return put_named(name, fitting(values or "", ROOM)).hex()
    data = bytes_of(line)
    try:
        parts = take_parts(Items(data))
    except Damaged as fault:
        return f"{len(data) - fault.at} left"
    shown = "".join(f"{name}={value} " for name, value in parts.labels)
    shown += "".join("/ %d %d %d " % key for key in parts.keys)
    for name, kind, values in parts.columns:
        shown += f"{name}:" + "".join(f"{value} " if kind == INTEGERS else f"[{value}] " for value in values)
    return shown


def some_rows(random):
    """Returns some rows of one stream. Their numbers are distinct, and their times are in order."""
    labels = random.choice(["", "app", "app,zone"])
    rows, time = [], random.choice([0, 5, 1714521600 * 10**9, 2**63 - 40])
    for place in range(random.randrange(1, 6)):
        time += random.randrange(3)
        fields = ["app=x y", "zone=é"]
        for name in random.sample(["_msg", "n", "b", "zz", "日"], random.randrange(1, 4)):
            fields.append(f"{name}={random.choice(['', 'a b', '7', '-70000', '07', 'error: ß', 'x' * 257])}")
        rows.append(numbered_of(f"{time} {random.choice([1, 2])} {place}", ",".join(fields), labels))
    return rows


def cases(random):
    lines = ["", "00", "labels ", "labels =", "labels a=,b=", "labels a=1,a=2,a=", "column  ", "column a"]
    lines += [f"labels {'n' * size}=1,b=2" for size in (127, 128, 129)]
    lines += ["column " + "n" * size for size in (65535, 65536)]
    for _ in range(12):
        data = put_block(some_rows(random))
        lines += [copy.hex() for copy in damaged_copies(data[:300], random, 25)] + [data.hex(), (data + b"\0").hex()]
        names = random.sample(["a", "b", "é", "app", "_stream", "z z"], 3)
        lines.append("labels " + ",".join(f"{name}={random.choice(['', 'x', 'ü', 'a=b'])}" for name in names))
        values = random.choices(["", "a b", "7", "-1", "x" * 257, "日本 語"], k=random.randrange(1, 6))
        lines.append(f"column {random.choice(names)} {','.join(values)}")
    return table(lines)
