"""The lines of rows, and of the records that pipes make."""
from chance import TEXTS, lines_of
from faults import Fault
import notation_cases
from notation import pairs, pipes, record
from pipes import outcome
from rows import Row
from values import json_line, number, record_of

BETWEEN = "\n---\n"
PARTS = "\n===\n"


def answers(stdin):
    rows, cases_, of_rows = (stdin.decode().split(PARTS, 2) + ["", ""])[:3]
    records = [row.record() for row in rows_of(rows)]
    lines = "".join(map(json_line, records))
    text = "".join(f"{name}\n{lines}" for name in ("printed", "plainly printed", "of records"))
    for case in lines_of(cases_.encode()):
        pipe, *fields = case.split("\t")
        text += f"== {pipe}\n" + made(pipe, list(map(record, fields)))
    for pipe in lines_of(of_rows.encode()):
        times = 5 if pipe.startswith("5x ") else 1
        text += f"== {pipe}\n" + made(pipe.removeprefix("5x "), records * times)
    return text.encode()


def rows_of(text):
    """Returns the rows of cases: a time, names of labels, and fields, with tabs between them."""
    rows = []
    for case in text.split(BETWEEN):
        time, *rest = case.split("\t", 2)
        if number(time) is None or len(rest) < 2:
            continue
        try:
            rows.append(Row(int(time), rest[0].split(","), record_of(pairs(rest[1], "\t"))))
        except Fault:
            pass
    return rows


def made(text, records):
    """Returns the lines of the records that pipes make of others, or the fault."""
    result = outcome(pipes(text), records)
    return result + "\n" if isinstance(result, str) else "".join(map(json_line, result))


def row(random):
    """Returns a row as a case."""
    names = ("a", "b", "_msg", "host", "_time", "_stream", "é", "a b", "_stream_", "Z", "n" * 129)
    values = [*TEXTS, "line\nfeed", "\r", "\x00", "\x1b", "x", "x", "y", "7", "12", "1.5"]
    time = random.choice((0, 1, 10**9, 1714557600500000000, 2**63 - 1, random.randint(0, 2**63 - 1), -1, 2**63, "x"))
    labels = ",".join(random.choice(names[:4]) for _ in range(random.randint(0, 2)))
    fields = [f"{random.choice(names)}={random.choice(values)}" for _ in range(random.randint(0, 5))]
    return "\t".join([str(time), labels, *fields])


def cases(random):
    rows = BETWEEN.join(row(random) for _ in range(60))
    made_of_records = ["", "fields a", "other x", "limit 0\ta=1"]
    for _ in range(300):
        made_of_records.append("\t".join([notation_cases.pipes(random), *notation_cases.records(random, 8)]))
    made_of_rows = [random.choice(("", "", "5x ")) + notation_cases.pipes(random) for _ in range(120)]
    return PARTS.join([rows, "\n".join(made_of_records), "\n".join(made_of_rows) + "\n"]).encode()
