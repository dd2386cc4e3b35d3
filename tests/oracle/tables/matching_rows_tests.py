"""Which rows of blocks match a query, in the order of their batches, and of their places in a batch."""
from blocks import is_block
from chance import lines_of, table
from filters import holds, of_row, patterns_of
from patterns import first_refused
from queries import parse
from shelves import Shelf
from tables.column_block_tests import row_of


def answers(stdin):
    return table(map(answer, lines_of(stdin)))


def answer(line):
    query, *blocks = line.split("\t")
    rows = []
    for block in blocks:
        found = [row_of(each) for each in block.split(";")]
        if None in found or not is_block(found):
            return "no block"
        rows += found
    filter_, _ = parse(query)
    refused = first_refused(patterns_of(filter_))
    if refused is not None:
        return f"RegexRefused {{ nth: {refused} }}"
    matches = [numbered for numbered in rows if holds(filter_, of_row(numbered.row), 0)]
    matches.sort(key=lambda numbered: (numbered.batch, numbered.place))
    return "".join(f"{numbered.row.time} {numbered.row.value('n')} / " for numbered in matches)


QUERIES = (
    "*", "error", "!error", "n:>3", "n:range[2, 5]", "{app=\"a\"}", "{app!=\"a\"}", "=\"an error\"",
    "error or n:1", "_time:[1970-01-01T00:00:02, 1970-01-01T00:00:04]", "zone:\"\"",
)  # fmt: skip


def block(random, app, batches, numbers):
    """Returns a block of rows of one stream as the text of a table. Takes the batch and place of each row."""
    rows = []
    for batch in batches:
        for _ in range(random.randint(0, 3)):
            place = numbers.get(batch, 0)
            numbers[batch] = place + 1
            rows.append((random.randint(0, 6), batch, place))
    rows.sort()
    message = ("an error", "fine", "errors", "error 7")
    return ";".join(
        f"{time * 10**9} {batch} {place}|app|app={app},n={random.randint(0, 6)},_msg={random.choice(message)}"
        for time, batch, place in rows
    )


def cases(random):
    lines = []
    for _ in range(300):
        numbers = {}
        blocks = [block(random, app, (1, 2, 3), numbers) for app in "abab"[: random.randint(0, 4)]]
        lines.append("\t".join([random.choice(QUERIES), *(text for text in blocks if text)]))
    for _ in range(100):
        shelf = Shelf(random)
        lines += ["\t".join([shelf.filter(3), *shelf.blocks()]) for _ in range(5)]
    return table(lines)
