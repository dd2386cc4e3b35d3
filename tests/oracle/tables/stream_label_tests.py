"""The labels of rows, and the text and the id of their streams."""
from chance import TEXTS
from faults import Fault
from rows import Row
from values import record_of

BETWEEN = "\n---\n"


def answers(stdin):
    return "".join(answer(*case.split("\t", 1)) for case in stdin.decode().split(BETWEEN) if "\t" in case).encode()


def answer(names, fields):
    try:
        row = Row(0, names.split(","), record_of(pair for pair in pairs(fields) if pair[0]))
    except Fault:
        return "no row\n"
    return f"{len(row.labels)} {len(row.fields)} > {row.stream_text()} {row.stream_id()}\n"


def pairs(fields):
    return [tuple(field.split("=", 1)) for field in fields.split("\t") if "=" in field]


NAMES = ("a", "b", "Z", "_msg", "_time", "_stream", "_stream_id", "a b", "é", "日", "a.b", "", "n" * 128, "n" * 129)


def cases(random):
    made = ["", "no tab", "\t", "a\t", "a\ta", "a\t=x", "\t=x", "a\ta=x\ta="]
    made += ["_time\t_time=1\ta=1", "_stream,a\t_stream=1"]
    values = [*TEXTS, "line\nfeed", "\n", "\x00", "\x1b", "\u2028", "v" * 300, "---"]
    for _ in range(250):
        fields = [f"{random.choice(NAMES)}={random.choice(values)}" for _ in range(random.randint(1, 6))]
        labels = [random.choice(NAMES) for _ in range(random.randint(0, 4))]
        made.append("\t".join([",".join(labels), *fields]))
    for count in (1000, 1001):
        made.append("\t".join(["f1,f10,f2", *(f"f{n}=x" for n in range(count))]))
    made += ["a\ta=" + "v" * (262144 - 1), "a\ta=" + "v" * 262144]
    return BETWEEN.join(made).encode()
