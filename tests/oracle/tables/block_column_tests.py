"""The columns of values (docs/BYTES.md, "Block"): the first kind that fits, the kind and the body as bytes, and what
bytes say."""
from byte_items import Damaged, Items, bytes_of, cut_once, damaged_copies, number_or
from chance import lines_of, table
from columns import DICTIONARY, CONSTANT, INTEGERS, distinct, fitting, kind_of, put_body, put_column
from columns import take_body, take_kind

ROOM = 4194304  # more bytes of values are left out


def answers(stdin):
    return table(map(answer, lines_of(stdin)))


def answer(line):
    call, rest = cut_once(line, " ")
    rest = rest or ""
    rows, digits = cut_once(rest, " ")
    rows, digits = number_or(rows, 0), digits or ""
    if call == "values":
        values = fitting(rest, ROOM)
        return put_column(values).hex() + listed(values)
    if call == "parts":
        return parts(fitting(rest, ROOM))
    return found(rows, digits) if call == "found" else "no call"


def listed(values):
    """Returns values as they are lent: an integer of a column of integers has a `#` before it."""
    mark = "#" if kind_of(values) == INTEGERS else ""
    return f" [{','.join(mark + value for value in values)}]"


def parts(values):
    kind = kind_of(values)
    members = [f" [{member}]" for member in distinct(values)] if kind in (CONSTANT, DICTIONARY) else [" none"]
    return f"{kind} {put_body(values).hex()}" + "".join(members)


def found(rows, rest):
    """Answers what bytes of any kind say, each value with its length, and their column unless one is too long."""
    most, digits = cut_once(rest, " ")
    most, items = number_or(most, 0), Items(bytes_of(digits or ""))
    try:
        kind = take_kind(items)
        values = take_body(items, kind, rows)
    except Damaged as fault:
        return f"damaged {len(items.data) - fault.at} before the end"
    sizes = [len(value.encode("utf-8")) for value in values]
    shown = [(f" {value}" if kind == INTEGERS else f" [{value}]") + f" {size}" for value, size in zip(values, sizes)]
    front = f"{len(items.rest())} left" + "".join(shown)
    return front + (" too long" if max(sizes, default=0) > most else f" {put_column(values).hex()}")


ALPHABET = ["", "a", "b", "é", "日本", "7", "-1", "07", "-0", "9223372036854775807", "9223372036854775808", "a b"]


def some_values(random):
    """Returns values of which each kind has its share."""
    choices = random.choice([ALPHABET, ALPHABET[:3], ["x", "y", ""], ["q"], [""]])
    if random.random() < 0.3:
        choices = [str(random.randrange(-(2**63), 2**63) // 2 ** random.randrange(64)) for _ in range(4)]
    values = [random.choice(choices) for _ in range(random.randrange(1, 9))]
    if random.random() < 0.2:
        values[0] = "x" * random.choice([255, 256, 257, 300])
    return values


def cases(random):
    lines = ["values ", "parts ", "found 0 0 ", "found 3 0 020100000000"]
    for _ in range(40):
        values = some_values(random)
        data = put_column(values)
        lines += ["values " + ",".join(values), "parts " + ",".join(values)]
        for copy in damaged_copies(data, random, 6)[-8:]:
            lines.append(f"found {len(values)} {random.choice([0, 1, 9, 999])} {copy.hex()}")
    # the same values in a dictionary whose values have another order, or come twice
    for _ in range(20):
        members = [random.choice(ALPHABET[:9]).encode("utf-8") for _ in range(random.randrange(1, 5))]
        codes = bytes(random.randrange(len(members)) for _ in range(random.randrange(6)))
        body = bytes([len(members)]) + b"".join(len(m).to_bytes(2, "little") + m for m in members) + codes
        lines.append(f"found {len(codes)} 99 {(bytes([2]) + body).hex()}")
    return table(lines)
