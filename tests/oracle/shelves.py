"""Makes batches of rows of some streams and days, as texts of tables, and filters that are near to their values."""
from blocks import numbered_of
from parts import blocks_of
from query_texts import quoted

DAY = 86400 * 10**9
WORDS = (
    "error", "errors", "an", "fine", "login", "failed", "é", "Straße", "日本", "x9", "GET", "user_1", "404", "７",
    "timeout", "of", "web", "1",
)  # fmt: skip
BETWEEN = (" ", " ", " ", "-", ": ", "/", " - ", "\u0301", "\u00a0", '"')
NUMBERS = ("0", "1", "2", "3", "5", "-4", "70000", "-5000000000", str(2**63 - 1), str(-(2**63)))
MIXED = ("five", "007", "1.5", "+1", "5", "-4", "two 2")
HOSTS = ("web-1", "web-2", "db", "日本", "x")
PATTERNS = ("err", "[0-9]+", "^an", "w[a-e]b", "é|ß", "(")
TIMES = (
    "5s", "1s", "0s", "1970", "1970-01-01", "1970-01-02", "1970-01-03T12", "1970-01-01T00:00:04", "2024",
    "[1970-01-01T00:00:02, 1970-01-01T00:00:05]", "(1970-01-02, 1970-01-04)", "(1970-01-02, 1970-01-02)",
    "[1970-01-04, 1970-01-02]", "[1970-01-03, 2030)", "(1970-01-01T00:00:02, 1970-01-01T00:00:03)",
)  # fmt: skip


def sentence(random):
    """Returns a text of some words."""
    said = random.choice(WORDS)
    for _ in range(random.randint(0, 3)):
        said += random.choice(BETWEEN) + random.choice(WORDS)
    return said


class Shelf:
    """Some batches. A row is its time, the names of its labels, and its fields."""

    def __init__(self, random):
        self.random = random
        self.apps, self.hosts = random.sample("abcdef", random.randint(1, 4)), random.sample(HOSTS, 2)
        self.days = random.choice([[0], [0, 0, 1], [0, 1, 2, 3], [19000, 0]])
        # of each name which values it has, so that its columns are constant, integers, dictionaries, or texts
        self.makers = {
            "_msg": lambda: sentence(random),
            "n": lambda: random.choice(NUMBERS),
            "m": lambda: random.choice(random.choice((NUMBERS, MIXED))),
            "c": lambda: "one and the same",
            "k": lambda: random.choice(("warn", "info", "", "login failed")),
            "p": lambda: sentence(random) + random.choice(("", " x" * 130)),
        }
        self.made = [("app", app) for app in self.apps] + [("host", host) for host in self.hosts]
        self.rows = [self.batch() for _ in range(random.choice((0, 1, 2, 3, 3, 4, 5, 6)))]

    def batches(self):
        """Returns each batch as the text of a table."""
        return [";".join(map("|".join, batch)) for batch in self.rows]

    def blocks(self):
        """Returns each block of the part of each batch as the text of a table."""
        found = []
        for number, batch in enumerate(self.rows, 1):
            part = [numbered_of(f"{row[0]} {number} {place}", row[2], row[1]) for place, row in enumerate(batch)]
            found += [";".join(map(row_text, block)) for block in blocks_of(part)]
        return found

    def often(self, share):
        return self.random.random() < share

    def batch(self):
        most = self.random.choice((1, 4, 12))
        return [self.row() for _ in range(self.random.randint(1, most))]

    def row(self):
        fields = [("app", self.random.choice(self.apps))]
        fields += [("host", self.random.choice(self.hosts)) for _ in range(self.often(0.5))]
        names = self.random.sample(sorted(self.makers), self.random.randint(1, 4))
        fields += [(name, self.makers[name]()) for name in names]
        self.made += fields
        time = self.random.choice(self.days) * DAY + self.random.randint(0, 12) * 10**9
        labels = self.random.choice(("app", "app", "app", "app,host", ""))
        return str(time), labels, ",".join(f"{name}={value}" for name, value in fields)

    def near(self, value):
        """Returns a value, a piece of it, or another text."""
        start = self.random.randint(0, len(value))
        piece = value[start : start + self.random.randint(1, 8)]
        word = self.random.choice(value.split(" "))
        absent = f"{self.random.choice(WORDS)}{self.random.randint(0, 99)}"
        return self.random.choice((value, piece, value[:start], word, word, sentence(self.random), absent, absent))

    def leaf(self):
        """Returns a filter of a field whose texts are near to one of its values."""
        name, value = self.random.choice(self.made)
        if self.often(0.1):
            name = self.random.choice(("none", "app", "_stream", "_stream_id", "_msg"))
        one, *others = (quoted(self.near(value)) for _ in range(self.random.randint(1, 3)))
        several = ", ".join([one, *others])
        words = (one, one, one, f"{one}*", f"={one}", f"={one}*", f"in({several})", f"seq({several})")
        rest = (
            f"i({one})", f"~{quoted(self.random.choice(PATTERNS))}", "*", '""', f">{self.random.randint(-5, 5)}",
            "in()", f"len_range({self.random.randint(0, 9)}, inf)", f"string_range({one}, x)",
            f"range[{self.random.randint(-5, 5)}, 70000)",
        )  # fmt: skip
        return f"{name}:{self.random.choice(words if self.often(0.85) else rest)}"

    def selector(self):
        tests = []
        for _ in range(self.random.randint(0, 2)):
            name, value = self.random.choice((("app", self.random.choice("abcdef")), ("host", self.random.choice(HOSTS))))
            tests.append(f"{name}{self.random.choice(('=', '=', '!='))}{quoted(value)}")
        tests += [f"app{self.random.choice(('=~', '!~'))}'[a-c]'" for _ in range(self.often(0.2))]
        return "{" + self.random.choice((", ", " or ")).join(tests) + "}"

    def filter(self, depth):
        kind = self.random.random()
        if depth == 0 or kind < 0.4:
            return self.leaf()
        if kind < 0.5:
            return "_time:" + self.random.choice(TIMES)
        if kind < 0.6:
            return self.selector()
        if kind < 0.68:
            return f"!({self.filter(depth - 1)})"
        between = self.random.choice((" ", " or "))
        return "(" + between.join(self.filter(depth - 1) for _ in range(self.random.randint(2, 3))) + ")"


def row_text(numbered):
    """Returns a row of a block as the text of a table."""
    fields = ",".join(f"{name}={value}" for name, value in numbered.row.fields.items())
    return "%d %d %d" % numbered.key() + f"|{','.join(numbered.row.labels)}|{fields}"
