"""Statistics of records, whose pieces are merged in the program."""
from chance import lines_of, table
from notation import record, record_text, stats
from notation_cases import NAMES, STEPS, records
from pipes import outcome

CALLS = ("count:", "count:b", "count_empty:a,b", "count_uniq:b", "count_uniq:a,b", "sum:b", "min:b", "max:b", "uniq_values:b")
KEYS = ("a", "b", "_time", "none", "é")
LONG = "0123456789" * 3

# no records; groups that one piece has, and that both have; values that both have; sums that leave 64 bits
CHOSEN = (
    "", "count:>n", "by=a count:>n", "by=a count:>n\ta=1\ta=2\ta=3", "by=a count:>n sum:b>s\ta=1&b=1\ta=1&b=2\ta=1&b=3",
    "count_uniq:x>n\tx=a\tx=b\tx=b", f"count_uniq:x>n\tx={LONG}\tx={LONG}x\tx={LONG}\tx=\tx=a",
    "by=a count_uniq:b,c>n\ta=1&b=1\ta=1&c=1\ta=2&b=1\ta=1&b=1\ta=2",
    "sum:b>s\tb=9223372036854775807\tb=1\tb=-1", "sum:b>s\tb=9223372036854775807\tb=1\tb=x", "sum:b>s\tb=x\tb=\tc=1",
    "by=a sum:b>s sum:c>t\ta=1&c=9223372036854775807\ta=2&b=9223372036854775807\ta=1&c=1\ta=2&b=1",
    "min:b>l max:b>g uniq_values:b>u\tb=\tb=10\tb=9\tb=a\tb=\tb=9\tb=010",
    "count:>n?a=1 count:b>m?a=1\ta=1\ta=2&b=1\ta=1&b=1",
    "by=_time:60000000000 count:>n\t_time=2024-05-01T10:00:01Z\t_time=2024-05-01T10:00:59Z\t_time=x",
)  # fmt: skip


def answers(stdin):
    return table(answer(*line.split("\t")) for line in lines_of(stdin))


def answer(words, *fields):
    made = outcome([stats(words)], [record(text) for text in fields])
    return made if isinstance(made, str) else "\t".join(map(record_text, made))


def key(random):
    name = random.choice(KEYS)
    return f"by={name}:{random.choice(STEPS)}" if name == "_time" or random.random() < 0.1 else f"by={name}"


def function(random):
    test = random.choice(("", "", "?a=1", "?b=", "?é=x"))
    return f"{random.choice(CALLS)}>{random.choice((*NAMES, 'n', 's'))}{test}"


def cases(random):
    lines = [*CHOSEN]
    for _ in range(300):
        keys = [key(random) for _ in range(random.randint(0, 2))]
        functions = [function(random) for _ in range(random.randint(1, 4))]
        lines.append("\t".join([" ".join(keys + functions), *records(random, 8)]))
    return table(lines)
