"""Tuples of values as texts, and their numbers."""
from chance import TEXTS, lines_of, table, text_of
from values import record_of
from words import size


def answers(stdin):
    numbers, lines = {}, []
    for line in lines_of(stdin):
        names, _, fields = line.partition("\t")
        record = record_of(pair for pair in pairs(fields) if pair[0])
        values = [record.get(name, "") for name in names.split(",")] if names else []
        text = tuple_text(values)
        number = numbers.setdefault(text, len(numbers))
        shown = "".join(f"[{value}]" for value in values)
        lines.append(f"{number} {text} {shown}" + ("" if any(values) else " empty"))
    return table([*lines, *numbers, str(len(numbers)), *merged(list(numbers))])


def merged(texts):
    """Returns for each place how many texts the ones before it have with those behind it, and with all."""
    parts = [(texts[:place], texts[place:]) for place in range(len(texts) + 1)]
    return [f"{len({*before, *after})} {len({*before, *texts})}" for before, after in parts]


def pairs(fields):
    return [tuple(field.split("=", 1)) for field in fields.split("&") if "=" in field]


def tuple_text(values):
    """One value is its own text. Of several each has its length in bytes and a colon before it."""
    return values[0] if len(values) == 1 else "".join(f"{size(value)}:{value}" for value in values)


def cases(random):
    values = [value for value in TEXTS if "&" not in value] + ["0:", "1:a", "x1:y", "10:", "v" * 200, "0123456789" * 3]
    names = ("a", "b", "c", "é", "none", "")
    lines = ["", "\t", "a", "a\t", ",\t", "a,a\ta=1"]
    for _ in range(300):
        count = random.randint(0, 4)
        fields = "&".join(f"{random.choice(names)}={random.choice((*values, text_of(random)))}" for _ in range(count))
        lines.append(",".join(random.choice(names[:5]) for _ in range(random.randint(1, 4))) + "\t" + fields)
    return table(lines)
