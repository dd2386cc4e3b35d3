"""Whether blocks may have rows that a query finds at a moment, and how many of their rows it finds."""
from blocks import is_block
from byte_items import cut_once
from chance import lines_of, table
from faults import Fault
from filters import holds, of_row
from needs import Head, admits
from sessions import parsed
from shelves import Shelf
from tables.column_block_tests import row_of

DAY = 86400 * 10**9


def answers(stdin):
    return table(map(answer, lines_of(stdin)))


def answer(line):
    now, rest = cut_once(line, "\t")
    query, blocks = cut_once(rest or "", "\t")
    try:
        filter_, _ = parsed(query)
    except Fault as fault:
        return f"RegexRefused {{ nth: {fault.at} }}" if fault.name == "RegexRefused" else "no query"
    now = int(now) if now.isdigit() else 0
    return "".join(f"{of_block(filter_, block, now)} / " for block in (blocks or "").split("\t"))


def of_block(filter_, line, now):
    rows = [row_of(each) for each in line.split(";")]
    if None in rows or not is_block(rows):
        return "no block"
    count = sum(holds(filter_, of_row(numbered.row), now) for numbered in rows)
    return f"{'yes' if admits(filter_, Head(rows), now) else 'no'} {count}"


def cases(random):
    lines = ["", "0\t*", "0\t*\t", "0\t(\t0 0 0||a=1", "0\t~'('\t0 0 0||a=1", "x\t*\t0 0 0||a=1\t1 0 0||a=1;0 0 1||a=1"]
    for _ in range(100):
        shelf = Shelf(random)
        blocks = shelf.blocks()
        for _ in range(10):
            now = random.choice((0, 10**10, 2 * DAY, random.choice(shelf.days) * DAY + random.randint(0, 12) * 10**9))
            lines.append("\t".join([str(now), shelf.filter(3), *blocks]))
    return table(lines)
