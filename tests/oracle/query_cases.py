"""Makes queries: right ones from the grammar, and near misses of them."""
from chance import mutated

BARE = (
    "a", "b", "error", "é", "日本", "a.b", "/x", "x-1", "_msg", "_time", "_stream", "_stream_id", "and", "OR", "not",
    "in", "i", "seq", "range", "len_range", "string_range", "by", "as", "asc", "desc", "limit", "offset", "if", "inf",
    "with", "hits", "count", "5m", "10", "2024-05-01", "T10", "٣", "from", "extract", "format", "len", "math", "div",
    "MOD", "a-b", "a/b",
)  # fmt: skip
QUOTED = (
    '""', '"a b"', "'x'", "`y`", '"and"', '"_time"', '"\\n"', '"\\""', "'it\\'s'", "`\\`", '"␊"', '"␀␉"', '"é🙂"',
    '"5"', '"-5"', '"inf"', '"2024"',
)  # fmt: skip
NUMBERS = (
    "0", "1", "-1", "10", '"5"', "-9223372036854775808", "9223372036854775807", "9223372036854775808", "007", "1.5",
    "-0", "x", "5m",
)  # fmt: skip
ENDS = ("inf", "-inf", "INF", *NUMBERS, "-Inf", '"inf"', '"-inf"')
SPANS = (
    "5m", "1h30m", "1ms", "1µs", "07us", "0s", "106751d", "1y", "106752d", "15250w", "15251w", '"5m"', "5", "5M",
    "9223372036854775807ns",
)  # fmt: skip
BOUNDS = (
    "2024", "2024-05", "2024-05-01", "2024-05-01T10", "2024-05-01T10:00", "2024-05-01T10:00:07",
    "2024-05-01T10:00:00.5", "2024Z", "2024-05-01Z", "2024-05-01T09+01:00", "2024-05-01T10:00:00-11:30",
    "2024-05-01T10:00:00.123456789Z", '"2024-05-01T10:00:00Z"', "1969", "1970", "2262", "2261", "2263", "2024-13",
    "2024-02-30", "2024-05-01T24", "2024-05-01t10", "'2024-05-01 10:00:00'", "now",
)  # fmt: skip
PATTERNS = ('"err.r"', "err", '"[0-9]+"', '"("', "`\\d`", '""', "'a|b'")
STEPS = ("1h", "5m", "1w", "1h30m", "1ms", "9223372036854775807ns", "0s", "1y", "106752d", "x", '"1h"')
COUNTS = (
    "0", "1", "2", "3", "10", "9223372036854775807", "9223372036854775808", "18446744073709551615", "-1", "x", "007",
    '"5"', "1.5",
)  # fmt: skip
EXTRACTED = (
    '"<a>"', '"x=<a> y"', "'<a>, <b>: <a>'", "`<_> <>-`", '"é<é>é"', '"<a><b>"', '""', '"none"', '"<a"', '"a>b<c>"',
    '"<a<b>>"', '"x<"', '"<a> <"', '"\\n<a>"', "name",
)  # fmt: skip
FORMATTED = (*EXTRACTED, '"<>"', '"<a><b>, <_>"', "`>`")
OPERATORS = ("+", "-", "*", "div", "mod", "Div", "MOD")
NOTS = ("!", "-", "not", "NOT", "Not")
LETTERS = "ab01é:|()[]{},=!~*<>-+ \"'`\\␊#"


class Queries:
    """Makes queries as lists of pieces. A piece is one token, or some that are glued."""

    def __init__(self, random):
        self.random = random

    def one(self, options):
        return self.random.choice(options)

    def often(self, options):
        """Returns one of the first options most times, and else any."""
        return self.one(options[:6] if self.random.random() < 0.85 else options)

    def name(self):
        return self.often(BARE) if self.random.random() < 0.8 else self.one(QUOTED)

    def text(self):
        return self.often(BARE) if self.random.random() < 0.5 else self.one(QUOTED)

    def argument(self):
        return self.one((self.text(), self.text(), self.text(), "-" + self.one(BARE)))

    def list_of(self, item, most=3):
        pieces = item()
        for _ in range(self.random.randint(0, most - 1)):
            pieces = [*pieces, ",", *item()]
        return pieces

    def names(self):
        return self.list_of(lambda: [self.name()])

    def leaf(self):
        form = self.random.randint(0, 11)
        if form < 3:
            return [self.text() + self.one(("", "", "*"))]
        if form == 3:
            return [self.one(("*", "=" + self.argument(), "=" + self.argument() + "*", "~" + self.one(PATTERNS)))]
        if form == 4:
            return [self.one(("in(", "IN(")), *self.one(([], self.list_of(lambda: [self.argument()]))), ")"]
        if form == 5:
            return ["seq(", *self.list_of(lambda: [self.argument()]), ")"]
        if form == 6:
            return ["i(", self.argument(), ")"]
        if form == 7:
            return ["len_range(", self.often(COUNTS), ",", self.often(("inf", *COUNTS)), ")"]
        if form == 8:
            return ["string_range(", self.argument(), ",", self.argument(), ")"]
        if form == 9:
            return [self.one(("range(", "range[")), self.often(ENDS), ",", self.often(ENDS), self.one((")", "]"))]
        return [self.one((">", ">=", "<", "<=", "> =")), self.often(NUMBERS)]

    def time(self):
        if self.random.random() < 0.6:
            return ["_time:" + self.one((self.often(SPANS), self.often(BOUNDS), self.often(BOUNDS)))]
        return ["_time:" + self.one("[("), self.often(BOUNDS), ",", self.often((*BOUNDS, "5m")), self.one(")]")]

    def label(self):
        return [self.name(), self.one(("=", "!=", "=~", "!~")), self.argument()]

    def selector(self):
        groups = self.list_of(self.label, 2)
        while self.random.random() < 0.3:
            groups += [self.one(("or", "OR")), *self.list_of(self.label, 2)]
        return [self.one(("{", "{", "_stream:{")), *self.one((groups, groups, [])), "}"]

    def filter(self, depth, inside=False):
        """Returns a filter. Inside of pipes it mostly has no selector and no time."""
        kind = self.random.random()
        if depth == 0 or kind < 0.35:
            return self.leaf()
        if kind < 0.45:
            return [self.one(NOTS), *self.filter(depth - 1, inside)]
        if kind < 0.55:
            return ["(", *self.filter(depth - 1, inside), ")"]
        if kind < 0.7:
            return [self.name() + ":", *self.filter(depth - 1, inside)]
        if kind < 0.8 and (not inside or kind < 0.71):
            return self.one((self.time, self.selector))()
        between = self.one((["and"], ["AND"], [], [], ["or"], ["or"]))
        return [*self.filter(depth - 1, inside), *between, *self.filter(depth - 1, inside)]

    def call(self):
        form = self.random.randint(0, 3)
        if form == 0:
            return ["count(", *self.one(([], ["*"], self.names())), ")"]
        if form == 1:
            return [self.one(("count_empty(", "count_uniq(")), *self.names(), ")"]
        return [self.one(("sum(", "min(", "max(", "uniq_values(")), self.name(), ")"]

    def function(self):
        condition = ["if", "(", *self.filter(2, inside=True), ")"] if self.random.random() < 0.25 else []
        return self.call() + condition + self.one(([], ["as", self.name()], ["as", self.name()], [self.name()]))

    def key(self):
        return self.one(([self.name()], [self.name()], ["_time:" + self.often(STEPS)]))

    def pair(self):
        return [self.name(), *self.one((["as"], ["as"], [])), self.name()]

    def direction(self):
        return self.one(([], ["asc"], ["desc"]))

    def cuts(self):
        limit, offset = ["limit", self.often(COUNTS)], ["offset", self.often(COUNTS)]
        return self.one(([], [], limit, offset, limit + offset, offset + limit, limit + limit))

    def target(self):
        return [*self.one((["as"], ["As"], [])), self.name()]

    def operand(self, depth):
        if depth and self.random.random() < 0.25:
            return ["(", *self.expression(depth - 1), ")"]
        return [self.one((self.name(), self.name(), self.often(("0", "1", "10", *NUMBERS))))]

    def expression(self, depth=3):
        pieces = self.operand(depth)
        while self.random.random() < 0.4:
            pieces = [*pieces, self.one(OPERATORS), *self.operand(depth)]
        return pieces

    def row_pipe(self):
        """Returns a pipe that sets fields."""
        form = self.random.randint(0, 4)
        if form == 0:
            return ["extract", self.one(EXTRACTED), *self.one(([], ["from", self.name()]))]
        if form == 1:
            return ["format", self.one(FORMATTED), *self.target()]
        if form == 2:
            return [self.one(("len", "LEN")), "(", self.name(), ")", *self.target()]
        return [self.one(("math", "Math")), *self.list_of(lambda: [*self.expression(), *self.target()])]

    def pipe(self):
        form, by = self.random.randint(0, 10), self.one((["by"], []))
        if form == 0:
            return [self.one(("fields", "keep", "delete", "DEL", "rm", "drop")), *self.names()]
        if form == 1:
            return [self.one(("rename", "mv", "copy", "cp")), *self.list_of(self.pair)]
        if form == 2:
            return [self.one(("limit", "head", "offset", "skip")), self.often(COUNTS)]
        if form == 3:
            keys = self.list_of(lambda: [self.name(), *self.direction()])
            return [self.one(("sort", "order")), *by, "(", *keys, ")", *self.direction(), *self.cuts()]
        if form == 4:
            hits = self.one(([], ["with", "hits"], ["with"]))
            return ["uniq", *by, "(", *self.names(), ")", *hits, *self.one(([], ["limit", self.often(COUNTS)]))]
        if form == 5:
            return ["top", *self.one(([], [self.often(COUNTS)])), *by, "(", *self.names(), ")"]
        if form == 6:
            return [self.one(("filter", "where")), *self.filter(3, inside=True)]
        if form < 9:
            return self.row_pipe()
        keys = self.one(([], [*by, "(", *self.list_of(self.key), ")"]))
        return [self.one(("stats", "Stats")), *keys, *self.list_of(self.function)]

    def query(self):
        pieces = self.filter(2)
        while self.random.random() < 0.4:
            pieces = [*pieces, "|", *self.pipe()]
        return pieces

    def changed(self, pieces):
        """Returns pieces of which one is left out, comes twice, or has another in its place."""
        at = self.random.randint(0, len(pieces) - 1)
        other = self.one((self.name(), self.text(), self.one(LETTERS), *self.leaf()))
        return [*pieces[:at], *self.one(([], [pieces[at]] * 2, [other], [other, pieces[at]])), *pieces[at + 1 :]]

    def joined(self, pieces):
        """Returns pieces as a text, mostly with blanks between them."""
        blanks = self.one((" ", " ", " ", " ", "  ", "\u3000", "␊", ""))
        return "".join(piece + (blanks if self.random.random() < 0.98 else "") for piece in pieces)


def deep_queries():
    """Returns queries with 64 and 65 parentheses and negations."""
    lines = []
    for depth in (63, 64, 65, 66):
        opened, closed, half = "(" * depth, ")" * depth, depth // 2
        lines += [f"{opened}a{closed}", f"a:{opened}b{closed}", f"{opened}in(a){closed}", opened, f"{opened}a", f"{opened}a>x"]
        lines += ["!" * depth + "a", "not " * depth + "a", "a:" + "-" * depth + "b", "!(" * half + "a" + ")" * half]
        lines += [f"* | stats count() if {opened}a{closed}", "* | filter " + "!" * depth + "a", "(a) " * depth, "!a " * depth]
        lines += [f"{opened[1:]}a{closed[1:]} | stats count() if (!a)"]
        lines += [f"* | math {opened}a{closed} as b", f"* | math {'(' * half}a + {'(' * half}b"]
        lines += [f"(a) | math {opened[1:]}1{closed[1:]} b, (2) c"]
    return lines


def queries(random, count):
    """Returns this many queries, and as many near misses."""
    made = Queries(random)
    lines = []
    for _ in range(count):
        pieces = made.query()
        lines.append(made.joined(pieces))
        near = made.joined(made.changed(pieces))
        lines.append(random.choice((near, near, mutated(random, lines[-1], LETTERS))))
    return lines
