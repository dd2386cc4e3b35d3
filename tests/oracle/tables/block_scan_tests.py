"""For which rows of a block a filter holds, a digit for each row."""
from blocks import is_block
from byte_items import cut_once
from chance import lines_of, table
from faults import Fault
from filters import holds, of_row
from sessions import parsed
from shelves import Shelf
from tables.column_block_tests import row_of

NOW = 5 * 10**9


def answers(stdin):
    return table(map(answer, lines_of(stdin)))


def answer(line):
    query, block = cut_once(line, "\t")
    rows = [row_of(each) for each in (block or "").split(";")]
    if None in rows or not is_block(rows):
        return "no block"
    try:
        filter_, _ = parsed(query)
    except Fault as fault:
        return f"RegexRefused {{ nth: {fault.at} }}"
    return "".join("1" if holds(filter_, of_row(numbered.row), NOW) else "0" for numbered in rows)


def integers(random):
    """Returns a block of integers over a width of bytes, more than a vector has lanes, and ranges around some of them."""
    width = 256 ** random.choice((1, 1, 2, 4, 8)) // random.choice((1, 2))
    least = random.choice((0, -(2**63), 2**63 - width, -5, 7))
    least = max(min(least, 2**63 - width), -(2**63))
    values = [least + random.randrange(width) for _ in range(random.randint(1, 80))]
    block = ";".join(f"{n} 1 {n}||n={value}" for n, value in enumerate(values))
    for _ in range(6):
        low, high = (random.choice((*values, least, 0, 2**63 - 1, -(2**63))) + random.randint(-1, 1) for _ in "lh")
        low, high = (max(min(end, 2**63 - 1), -(2**63)) for end in (low, high))
        ends = f"{random.choice('[(')}{random.choice((low, low, '-inf'))}, {random.choice((high, high, 'inf'))}"
        query = random.choice((f"n:range{ends}{random.choice('])')}", f"n:{random.choice(('>', '>=', '<', '<='))}{low}"))
        yield f"{query}\t{block}"


def cases(random):
    lines = ["*", "*\t", "error\t0 0 0||a=1;0 0 0||a=1", "~'('\t0 0 0||a=1"]
    for _ in range(60):
        lines += integers(random)
    for _ in range(150):
        shelf = Shelf(random)
        blocks = shelf.blocks()
        lines += [f"{shelf.filter(3)}\t{random.choice(blocks)}" for _ in range(8 if blocks else 0)]
    return table(lines)
