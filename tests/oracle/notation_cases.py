"""Makes pipes and records in the small notation."""
from chance import NUMBERS, STAMPS, TEXTS, text_of

NAMES = ("a", "b", "c", "_msg", "_time", "_stream", "hits", "none", "é")
STEPS = (1, 7, 1000, 10**9, 60 * 10**9, 86400 * 10**9, 2**63 - 1)
COUNTS = (0, 1, 1, 2, 2, 3, 5, 10, 2**32, 2**64 - 1)
SUMS = ("9223372036854775807", "-9223372036854775808", "4611686018427387904", "1", "-1", "0", "1.5")
TESTS = ("=1", "!1", "=", "!", "~1", "~^[0-9]+$", "~", "=x", "!é", "~.", "~a|b")
REFUSED = ("~(", "~[", "~*", "~a{2,1}")


MIXTURES = (
    ["small"], ["short"], ["text", "short"], ["number", "stamp", "small"], ["number", "stamp", "text"], ["sum", "small"],
)  # fmt: skip


def value(random, names_of_values):
    """Returns a value that a record in a case may have."""
    kind = random.choice(names_of_values)
    if kind == "small":
        return str(random.randint(-2, 12))
    texts = {"number": NUMBERS, "stamp": STAMPS, "sum": SUMS, "text": [text for text in TEXTS if "&" not in text]}
    return random.choice(texts[kind]) if kind in texts else text_of(random, "ab1é", 2)


def record(random, kinds):
    """Returns a record with values of these kinds. Where a name comes again the later value counts."""
    return "&".join(f"{random.choice(NAMES[:5])}={value(random, kinds)}" for _ in range(random.randint(0, 4)))


def records(random, most):
    """Returns records with values of one mixture of kinds, so that some values are equal."""
    kinds = random.choice(MIXTURES)
    return [record(random, kinds) for _ in range(random.randint(0, most))]


def names(random, most=3):
    return ",".join(random.choice(NAMES) for _ in range(random.randint(1, most)))


def maybe(random, word):
    """Returns a part of a pipe with a number, or nothing."""
    return f" {word}={random.choice(COUNTS)}" if random.random() < 0.4 else ""


def sort(random):
    keys = ",".join(random.choice(("", "", "-")) + random.choice(NAMES) for _ in range(random.randint(1, 3)))
    return f"sort by={keys}" + maybe(random, "offset") + maybe(random, "limit")


def uniq(random):
    return f"uniq by={names(random)}" + random.choice(("", " hits")) + maybe(random, "limit")


def top(random):
    return f"top by={names(random)}" + maybe(random, "n")


def test(random):
    """Returns a test of a field. Few of its patterns can't be read."""
    return random.choice(NAMES[:4]) + random.choice(REFUSED if random.random() < 0.03 else TESTS)


def function(random, place):
    call = random.choice(("count", "count", "count_empty", "count_uniq", "sum", "sum", "min", "max", "uniq_values"))
    fields = names(random) if call.startswith("count") else random.choice(NAMES)
    only = "?" + test(random) if random.random() < 0.3 else ""
    name = random.choice((f"f{place}", f"f{place}", "a", "n"))
    return call + (":" + fields if call != "count" or random.random() < 0.5 else "") + ">" + name + only


def stats(random):
    """Returns the words of keys and functions."""
    keys = []
    for _ in range(random.choice((0, 1, 1, 2))):
        keys.append("by=" + random.choice((*NAMES, *(f"_time:{step}" for step in STEPS))))
    return " ".join(keys + [function(random, place) for place in range(random.randint(1, 4))])


PATTERNS = (
    "<a>", "x=<a>", "<a>1", "<a> <b>", "1<a>2<b>", "<b>é<c>", "<_>-<a>", "<>b<a>", "a<a>b<a>", "<_msg>.<_time>",
    "-<none>-<a>-", "<a>0<b>0<c>0",
)  # fmt: skip
FORMATS = (*PATTERNS, "", "x", "<a><b>", "<none>", "<a>:<_>", "<>", "<_time> <_stream>")
OPERANDS = (*NAMES, *NAMES, "0", "1", "-1", "2", "10", "-7", str(2**63 - 1), str(-(2**63)), "007", "1.5")


def row_pipe(random):
    """Returns a pipe that sets fields."""
    from_, name = random.choice(NAMES), random.choice(NAMES)
    return random.choice((
        lambda: f"extract {from_} {random.choice(PATTERNS)}",
        lambda: f"format {name} {random.choice(FORMATS)}",
        lambda: f"len {from_}>{name}",
        lambda: math(random),
        lambda: math(random),
    ))()  # fmt: skip


def math(random):
    items = [f"{expression(random, 2)}>{random.choice(NAMES)}" for _ in range(random.choice((1, 1, 2, 3)))]
    return "math " + " ".join(items)


def expression(random, depth):
    if depth == 0 or random.random() < 0.3:
        return random.choice(OPERANDS)
    left, right = expression(random, depth - 1), expression(random, depth - 1)
    return f"{left},{right},{random.choice(('+', '-', '*', 'div', 'mod'))}"


# those that make a pipe which is compared with a slow one
COMPARED = (sort, uniq, top, lambda random: "stats " + stats(random))


def pipe(random):
    """Returns a pipe of any kind."""
    moved = ",".join(f"{random.choice(NAMES)}>{random.choice(NAMES)}" for _ in range(random.randint(1, 3)))
    return random.choice((
        lambda: "fields " + names(random, 5),
        lambda: "delete " + names(random),
        lambda: "rename " + moved,
        lambda: "copy " + moved,
        lambda: f"limit {random.choice(COUNTS)}",
        lambda: f"offset {random.choice(COUNTS[:6])}",
        lambda: sort(random),
        lambda: uniq(random),
        lambda: top(random),
        lambda: "stats " + stats(random),
        lambda: "filter " + test(random),
        lambda: row_pipe(random),
        lambda: row_pipe(random),
    ))()  # fmt: skip


def pipes(random, most=4):
    return "|".join(pipe(random) for _ in range(random.randint(1, most)))
