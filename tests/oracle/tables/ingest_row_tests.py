"""The rows of lines of JSON, with the arguments of their insert, and of messages of syslog; the limits of both."""
from chance import NUMBERS, STAMPS, lines_of, some, table
from faults import Fault
from rows import Options, row_of_line, row_of_syslog
from tables import jsonline_in_tests, syslog_in_tests
from values import in_order

NOW = 5
BATCH = 64 * 2**20
ROW_FAULTS = ("TimeRange", "NameLong", "ManyFields", "RowLarge", "Empty")


def answers(stdin):
    return table(map(answer, lines_of(stdin)))


def answer(case):
    try:
        if case.startswith("<"):
            return row_text(row_of_syslog(NOW, case.encode()))
        arguments, tab, line = case.partition("\t")
        kind, _, rest = case.partition(" ")
        if not tab and kind in KINDS:
            return KINDS[kind](rest)
        options = Options(tuple(argument.split("=", 1)) for argument in arguments.split("&") if "=" in argument)
        return row_text(row_of_line(options, NOW, line.encode())) if tab else options_text(options)
    except Fault as fault:
        return syslog_fault(fault) if case.startswith("<") else fault.name


def line_fault(line):
    """Returns the name of the fault of a line without arguments, or `row`."""
    try:
        row_of_line(Options(()), NOW, line.encode())
        return "row"
    except Fault as fault:
        return fault.name


def long_text(rest):
    count, first, piece, last = rest.split("|")
    return " ".join(line_fault(first + piece * n + last) for n in (int(count), int(count) - 1))


def members_text(count):
    return line_fault("{" + ",".join(f'"{n}":0' for n in range(int(count))) + "}")


def lines_text(count):
    """Of rows of a field of two bytes and one of 200,001."""
    weight = int(count) * 200003
    return f"0 {weight}" if weight > BATCH else f"{count} 0"


def added_text(rest):
    """Of equal lines, to each of which 200,000 bytes are added. The memory that rows count has a bound."""
    count, labels, blanks, line = rest.split("|", 3)
    line += " " * int(blanks or 0)
    count = int(count)
    bound = max(48 * 2**20, 17 * count * (len(line) + 1))
    options = Options((("extra_fields", "f=" + "v" * 200000), ("_stream_fields", labels)))
    try:
        row = row_of_line(options, NOW, line.encode())
    except Fault as fault:
        return "memory" if fault.name in ("ManyFields", "RowLarge") and is_much_added(options, count, bound) else "0 0"
    weight = count * sum(len(name) + len(value) for name, value in in_order(row.fields))
    if is_much_added(options, count, bound):
        return "memory"
    if weight > BATCH:
        return f"0 {weight}"
    return f"{count} 0" if count * memory_of(row) <= bound else "memory"


def is_much_added(options, count, bound):
    """Returns whether what is added to so many lines takes more than 16 times what their rows may take."""
    sizes = ((64 + len(name) + len(value)) * (2 if name in options.stream_fields else 1)
             for name, value in options.extra_fields)
    return count * sum(sizes) > 16 * bound


def memory_of(row):
    """Returns the bytes that a row counts."""
    def texts(fields):
        return sum(24 + len(text) for field in fields for text in field if len(text) > 30)
    labels = in_order(row.labels)
    slots = max(4, 1 << (len(labels) - 1).bit_length()) if labels else 0
    fields = in_order(row.fields)
    taken = 124 + 16 + 64 * len(fields) + texts(fields) + sum(8 + len(value) for _, value in fields)
    return taken + (16 + 64 * slots + texts(labels) if labels else 0)


KINDS = {
    "long": long_text,
    "members": members_text,
    "lines": lines_text,
    "added": added_text,
    # each check of the program holds
    "check": lambda name: "true",
}


def syslog_fault(fault):
    if fault.name in ROW_FAULTS:
        return f"Row({fault.name})"
    return f"Message({fault.name})" if fault.at is None else f"Message({fault.name} {{ at: {fault.at} }})"


def bracketed(texts):
    return "".join(f"[{text}]" for text in texts)


def fields_text(fields):
    return bracketed(f"{name}:{value}" for name, value in fields)


def row_text(row):
    return f"{row.time} {fields_text(in_order(row.labels))} {fields_text(in_order(row.fields))}"


def options_text(options):
    lists = (bracketed(options.message_fields), bracketed(options.ignored_fields), fields_text(options.extra_fields))
    return "; ".join((bracketed(options.stream_fields), options.time_field, *lists))


NAMES = ("a", "b", "_msg", "_time", "t", "app", "_stream", "_stream_id", "é", "o.a", "", " a")
OTHERS = ("7", "0", "1714557600.5", "null", "true", "[1, 2]", '{"a":"x"}', "-1")


def arguments(random):
    pairs = []
    for _ in range(random.randint(0, 3)):
        name = random.choice(("_stream_fields", "_time_field", "_msg_field", "ignore_fields", "extra_fields", "limit"))
        value = random.choice(NAMES) if name == "_time_field" else ",".join(some(random, NAMES, 3))
        if name == "extra_fields" and random.random() < 0.8:
            extra = [name_ + "=" + random.choice(("", "x", "é", "7", "a=b")) for name_ in NAMES[:-2]]
            value = ",".join(some(random, extra, 3))
        pairs.append(f"{name}={value}")
    return random.choice(("", "&", "x&")) + "&".join(pairs)


def line(random):
    """Returns a line of JSON with names that the arguments ask for."""
    members = []
    for _ in range(random.randint(0, 5)):
        name = random.choice((*NAMES, "_time"))
        text = random.choice((random.choice(STAMPS), random.choice(NUMBERS), "x", "", "0", "é"))
        value = random.choice((f'"{text}"', f'"{text}"', *OTHERS))
        members.append(f'"{name}":{value}')
    return "{" + ",".join(members) + "}"


def cases(random):
    lines = ["", "\t", "\t{}", "\tnull", "_stream_fields=a,b\t{}"]
    for _ in range(250):
        lines += [arguments(random), arguments(random) + "\t" + line(random), "\t" + line(random)]
        lines.append("\t" + jsonline_in_tests.object_text(random, 2).replace("\r", " ").replace("\t", " "))
    messages = (syslog_in_tests.message(random) for _ in range(150))
    lines += [text for text in map(as_text, messages) if text is not None]
    name, value = "n" * 128, "v" * 262143
    lines += [f'\t{{"{name}":"x"}}', f'\t{{"{name}n":"x"}}', f'\t{{"a":"{value}"}}', f'\t{{"a":"{value}v"}}']
    for count in (1000, 1001):
        lines.append("\t{" + ",".join(f'"f{n}":1' for n in range(count)) + "}")
        parameters = "".join(f' p{n}="x"' for n in range(count - 5))
        lines.append(f"<13>1 - - - - - [a{parameters}] m")
    lines += [f"members {random.randint(998, 1003)}", f"long {random.randint(128, 131)}|{{\"|n|\":\"v\"}}"]
    return table(lines)


def as_text(message):
    """Returns a message as a line of a table, or None if it can't stand in one."""
    try:
        text = message.decode("utf-8")
    except UnicodeDecodeError:
        return None
    return text if text.startswith("<") and not any(c in text for c in "\r\n") else None
