"""What queries find in batches, by batch and by place in it, and how many blocks they open."""
from functools import lru_cache

from chance import lines_of, table
from faults import Fault
from needs import admitted, heads_of
from sessions import Log, parsed
from shelves import Shelf
from tables.column_block_tests import row_of
from values import json_line

NOW = 10 * 10**9
FAULTS = {"RegexRefused": "regex", "Overflow": "overflow"}


def answers(stdin):
    return table(map(answer, lines_of(stdin)))


@lru_cache(maxsize=4)
def shelf_of(batches):
    """Returns a log of batches, and the heads of their blocks, or None if a batch has a row that is none."""
    log = Log()
    for batch in batches:
        found = [row_of(each) for each in batch.split(";")]
        if None in found:
            return None
        log.insert([numbered.row for numbered in found])
    return log, heads_of(log.batches)


def answer(line):
    query, *batches = line.split("\t")
    shelf = shelf_of(tuple(batches))
    if shelf is None:
        return "no batch"
    log, heads = shelf
    # a query that is refused is refused before a block is opened
    steps = 0
    try:
        steps = admitted(parsed(query)[0], heads, NOW)
        said = [json_line(record).removesuffix("\n") for record in log.records(query, NOW)]
    except Fault as fault:
        said = [f"{FAULTS[fault.name]} {fault.at}" if fault.name in FAULTS else "unspelled"]
    return " ; ".join([*said, f"{steps} steps", "true", "true"])


PIPES = (
    "fields n, app", "sort by (n desc)", "sort by (_time, n)", "limit 3", "offset 2", "uniq by (app) with hits",
    "top 2 by (n)", "stats by (app) count() as all, sum(n) as s", "stats sum(n) as s", "filter n:>2",
    "filter n:~\"[\"", "stats by (n) min(_time) as n, uniq_values(app) as app", "extract \"<a> <_>\"",
    "extract \"<c>-\" from host", "format \"<app>:<n>\" as app", "len(_msg) as n", "math n * n as q, q mod 7 as r",
    "math n - 1 as n",
)  # fmt: skip


def line(random, shelf):
    """Returns a query with pipes, and the batches."""
    pipes = [random.choice(PIPES) for _ in range(random.choice((0, 1, 1, 2)))]
    return "\t".join([" | ".join([shelf.filter(3), *pipes]), *shelf.batches()])


def mistaken(random, shelf):
    """Returns a query of a word that a column seems to have though it has not, if one is found."""
    _, heads = shelf_of(tuple(shelf.batches()))
    columns = [(name, bloom) for head in heads for name, bloom in head.filters.items()]
    for number in range(1000 if columns else 0):
        name, bloom = random.choice(columns)
        if bloom.may_have(b"w%d" % number):
            return "\t".join([f"{name}:w{number} | fields {name}", *shelf.batches()])
    return line(random, shelf)


def cases(random):
    lines = ["", "*", "(", "error\t-1||n=1"]
    for _ in range(200):
        shelf = Shelf(random)
        lines += [mistaken(random, shelf), *(line(random, shelf) for _ in range(24))]
    return table(lines)
