"""Parts (docs/BYTES.md, "Part"): their blocks and rows, their bytes, which bytes are parts, and where others are
damaged."""
from blocks import put_block
from byte_items import Damaged, bytes_of, cut_once, number_or
from chance import lines_of, table
from parts import Version, blocks_of, in_batch, may_be_part, order, put_blocks, put_part, read_part, weight
from tables.column_block_tests import row_line, row_of
from values import in_order


def answers(stdin):
    return table(map(answer, lines_of(stdin)))


def answer(line):
    call, rest = cut_once(line, " ")
    if call == "=":
        return read(bytes_of(rest or ""))
    if call == "made" and rest is not None:
        return made(rest)
    if call == "batch" and rest is not None:
        return of_rows(rest, lambda rows: whole(in_batch(rows, 7)))
    return of_rows(line, lambda rows: whole(rows) if may_be_part(rows) else "no part")


def of_rows(line, answer_of):
    rows = [row_of(each) for each in line.split(";")]
    return "no row" if None in rows else answer_of(rows)


def whole(rows):
    return f"{shown(rows)} {put_part(rows).hex()}"


def shown(rows):
    text = f"{len(rows)} {weight(rows)}"
    for block in blocks_of(rows):
        text += " #" + "".join(f" {name}={value}" for name, value in in_order(block[0].row.labels))
        for numbered in block:
            text += " / %d %d %d" % numbered.key()
            text += "".join(f" {name}={value}" for name, value in in_order(numbered.row.fields))
    return text


def read(data):
    try:
        return shown(read_part(data))
    except Damaged as fault:
        return f"damaged at {fault.at}"
    except Version as fault:
        return f"version {fault}"


def made(sizes):
    """Answers for a part that is too large to be shown."""
    count, streams, columns = ([number_or(word, 1, 2**16) for word in sizes.split(" ")] + [1, 1])[:3]
    lines = []
    for n in range(count):
        names = "".join(f"c{c}=x," for c in range(columns) if c % count == n % columns)
        lines.append(f"{count - n} 1 {n}|app|app=a{n % streams},{names}")
    rows = list(map(row_of, lines))
    data = put_part(rows)
    blocks = "".join(f" {len(block)}" for block in blocks_of(rows))
    return f"{len(rows)} {weight(rows)}{blocks} {len(data)} true {read(data[:-1])}"


FIELDS = (
    ("app", ("db", "web", "é")), ("zone", ("a", "b", "")), ("n", ("1", "7", "300", "x", "")),
    ("_msg", ("a", "one two", "w3 w4")),
)  # fmt: skip


def row(random):
    """Returns a row as the text of a table."""
    key = f"{random.choice((0, 1, 2, 3, 5, 9, 1714521600 * 10**9))} {random.choice((1, 1, 2, 3))} {random.randint(0, 5)}"
    fields = [f"{name}={random.choice(values)}" for name, values in FIELDS if random.random() < 0.75]
    return f"{key}|{random.choice(('', 'app', 'app,zone', 'zone'))}|{','.join(fields or ['_msg=z'])}"


def damaged(random, rows):
    """Returns bytes that are nearly those of the part of these rows."""
    data = put_part(rows)
    blocks = [put_block(block) for block in blocks_of(rows)]
    place = random.randrange(len(data))
    half = sorted(rows, key=order)
    cut = random.randint(1, len(rows))
    return random.choice((
        lambda: data[:place],
        lambda: data[:place] + bytes([(data[place] + random.choice((1, 255, 16))) % 256]) + data[place + 1 :],
        lambda: data + bytes([random.randint(0, 2)]),
        lambda: put_blocks(random.sample(blocks, len(blocks))),
        lambda: put_blocks([put_block(block) for piece in (half[:cut], half[cut:]) for block in blocks_of(piece)]),
        lambda: put_blocks([*blocks, random.choice(blocks)]),
        lambda: put_blocks(blocks[1:]),
    ))()  # fmt: skip


def cases(random):
    first = put_part([row_of("5 1 0||_msg=a")])
    lines = ["5 1 0||_msg=a", "made 10 3 4", "made 3 1 2100", "made 7 7 7", "= ", f"= {first.hex()}00"]
    lines += [f"= {first[:length].hex()}" for length in range(len(first))]
    lines += [f"= {(first[:6] + bytes([version, 0]) + rest).hex()}" for version in (0, 2, 9) for rest in (b"", first[8:])]
    lines += [f"= {(first[:8] + bytes([count, 0, 0, 0]) + first[12:]).hex()}" for count in (0, 2)]
    for _ in range(60):
        texts = [row(random) for _ in range(random.randint(1, 8))]
        lines.append(random.choice(("", "", "", "batch ")) + ";".join(texts))
        rows = list(map(row_of, texts))
        if None not in rows and may_be_part(rows):
            lines.append(";".join(map(row_line, rows)))
            lines += [f"= {data.hex()}" for data in (put_part(rows), *(damaged(random, rows) for _ in range(5)))]
    return table(lines)
