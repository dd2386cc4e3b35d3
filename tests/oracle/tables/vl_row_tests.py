"""The order of two values and which numbers they are, the limits of rows and batches, and the order of fields."""
from chance import NUMBERS, STAMPS, TEXTS, lines_of, mutated, table, text_of
from faults import Fault
from rows import ROW, Row
from values import in_order, number, record_of, value_key

BATCH = 67108864


def answers(stdin):
    return table(map(answer, lines_of(stdin)))


def answer(line):
    a, tab, b = line.partition("\t")
    if tab:
        sign = "<" if value_key(a) < value_key(b) else ">" if value_key(a) > value_key(b) else "="
        return f"{sign} {number_text(a)} {number_text(b)}"
    kind, _, case = line.partition(" ")
    return KINDS[kind](case) if kind in KINDS else ""


def number_text(text):
    return "None" if number(text) is None else f"Some({number(text)})"


def row_text(case):
    time, count, name_size, value_size = map(int, case.split(" "))
    fields = record_of((str(n).ljust(name_size, "n"), "v" * value_size) for n in range(count))
    try:
        row = Row(time, (), fields)
        return f"{row.time} {len(row.fields)}"
    except Fault as fault:
        return f"{fault.name} {len(fields)}"


def batch_text(case):
    count = int(case)
    if count == 0:
        return "NoRows 0"
    weight = count * ROW
    return f"Large {{ weight: {weight} }} {count}" if weight > BATCH else str(count)


def falling_text(case):
    """Members 7 and 8 come again: 7 with another value, and 8 with the empty one."""
    falling = [(f"n{10001 + n}", "first") for n in reversed(range(int(case)))]
    fields = record_of(falling + [("n10007", "again"), ("n10008", "")])
    return "".join(f"{name}={value} " for name, value in in_order(fields))


KINDS = {
    "row": row_text,
    "batch": batch_text,
    "falling": falling_text,
    # a text grows by what is added, and each check of the program holds
    "text": lambda case: "true",
    "check": lambda case: "true",
    "stream": lambda case: "true" if len(set(case.split(" "))) == 1 else "false",
}


def cases(random):
    values = NUMBERS + STAMPS + TEXTS
    lines = ["no tab", "", "\t"]
    for _ in range(500):
        integer = random.choice((random.randint(-(2**64), 2**64), random.randint(-99, 99)))
        a = random.choice((random.choice(values), text_of(random), str(integer)))
        b = random.choice((a, random.choice(values), mutated(random, a, "0159-+.TZ:aé"), random.choice(NUMBERS)))
        lines.append(a + "\t" + b)
    for _ in range(20):
        lines.append(f"text {random.randint(0, 70)} {random.randint(0, 70)}")
        lines.append(f"falling {random.randint(0, 400)}")
        time, count = random.choice((-1, 0, 7)), random.choice((0, 1, 999, 1000, 1001))
        lines.append(f"row {time} {count} {random.choice((3, 128, 129, 130))} {random.choice((0, 1, 258, 259))}")
    return table(lines + ["9" * 5000 + "\t" + "9" * 5001])
