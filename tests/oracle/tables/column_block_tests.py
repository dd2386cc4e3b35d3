"""Blocks of rows (docs/BYTES.md, "Block"): what their heads and their rows say, their bytes, which bytes are blocks,
and where others are damaged.

The first number of an answer says how often the block was opened, which the program does twice.
"""
from blocks import Numbered, is_block, names_of, numbered_of, put_block, put_keys, read_block, values_of
from byte_items import Damaged, bytes_of, cut_once, damaged_copies, number_or, text, unsigned
from chance import lines_of, table
from columns import CONSTANT, DICTIONARY, INTEGERS, TEXTS
from columns import column_filter, distinct, kind_of, put_body, put_filter, put_texts
from faults import Fault
from rows import Row
from tables.block_format_tests import some_rows
from values import in_order


def answers(stdin):
    return table(map(answer, lines_of(stdin)))


def answer(line):
    call, rest = cut_once(line, " ")
    if call == "=":
        return read(bytes_of(rest or ""))
    if call in ("made", "wide") and rest is not None:
        one, other = cut_once(rest, " ")
        return {"made": made, "wide": wide}[call](one, other or "")
    if call in ("head", "lent") and rest is not None:
        return of_rows(rest, {"head": head, "lent": lent}[call])
    if call == "batch" and rest is not None:
        number, line = cut_once(rest, " ")
        return of_rows(line or "", lambda rows: in_batch(rows, number_or(number, 0, 2**64)))
    return of_rows(line, lambda rows: shown(rows) + put_block(rows).hex())


def of_rows(line, answer_of):
    """Answers for the rows of a line, if they are those of a block."""
    rows = [row_of(each) for each in line.split(";")]
    if None in rows:
        return "no row"
    return answer_of(rows) if is_block(rows) else "no block"


def row_of(line):
    key, rest = cut_once(line, "|")
    labels, fields = cut_once(rest or "", "|")
    return numbered_of(key, fields or "", labels)


def outline(rows):
    """Returns the least and the greatest time, and the number of the rows."""
    times = [numbered.row.time for numbered in rows]
    return f"{min(times)} {max(times)} {len(rows)}"


def filters(rows):
    """Returns the name of each column, with the number of 64-bit words of its filter."""
    return "".join(f" {name}:{column_filter(values_of(rows, name)).count()}" for name in names_of(rows))


def shown(rows):
    names = names_of(rows)
    columns = {name: values_of(rows, name) for name in names}
    lends = {name: kind_of(values) == INTEGERS for name, values in columns.items()}
    found = [f"2 {outline(rows)} {len(names)}"]
    found += [f" {name}={value}" for name, value in in_order(rows[0].row.labels)] + [filters(rows)]
    for place, numbered in enumerate(rows):
        found.append(" / %d %d %d" % numbered.key())
        found += [f" {columns[name][place]}" if lends[name] else f" [{columns[name][place]}]" for name in names]
        found += [f" {name}={value}" for name, value in in_order(numbered.row.fields)]
    return "".join(found) + " "


def head(rows):
    size = sum(len(text.encode("utf-8")) for numbered in rows for pair in numbered.row.fields.items() for text in pair)
    return f"{outline(rows)} {size}{filters(rows)}"


def lent(rows):
    """Returns what an opened block lends: its labels, the times, and of each column, and of none, its values."""
    found = "".join(f"{name}={value} " for name, value in in_order(rows[0].row.labels))
    found += "at" + "".join(f" {numbered.row.time}" for numbered in rows)
    for name in names_of(rows):
        values = values_of(rows, name)
        found += f"; {name}{lent_values(values)}"
        found += f", {len(values)} integers" if kind_of(values) == INTEGERS else ""
    return f"{found}; nobody {len(rows)} times []"


def lent_values(values):
    """Returns the values of a column as they are held, and of texts their lengths."""
    kind, members = kind_of(values), distinct(values)
    if kind == CONSTANT:
        return f" {len(values)} times [{values[0]}]"
    if kind == INTEGERS:
        return "".join(f" {value}" for value in values)
    if kind == DICTIONARY:
        return "".join(f" {members.index(value)} [{value}]" for value in values)
    return "".join(f" {len(value.encode('utf-8'))} bytes" for value in values)


def in_batch(rows, number):
    """Answers for the rows under another number of their batch."""
    if len({numbered.batch for numbered in rows}) > 1:
        return "several batches"
    others = [Numbered(numbered.row, number, numbered.place) for numbered in rows]
    return f"{shown(others)}{put_block(others).hex()} {shown(rows)}"


def read(data):
    try:
        return shown(read_block(data))
    except Damaged as fault:
        return f"damaged at {fault.at}"


def large(rows):
    """Answers for a block that is too large to be shown."""
    if not is_block(rows):
        return "no block"
    data = put_block(rows)
    return f"{len(rows)} {len(data)} true {read(data[:-1])}"


def made(count, length):
    count, length = number_or(count, 1, 2**16), number_or(length, 1, 2**16)
    rows = []
    for place in range(count):
        try:
            row = Row(place, [], {"c": str(place).ljust(length, "x")})
        except Fault:
            continue
        rows.append(Numbered(row, 1, place))
    return large(rows)


def wide(count, columns):
    """Answers for rows over which the names of the columns are spread."""
    count, columns = number_or(count, 1, 2**16), number_or(columns, 1, 2**16)
    rows = []
    for place in range(count):
        fields = {f"c{c}": "x" for c in range(columns) if c % count == place % columns}
        try:
            rows.append(Numbered(Row(place, [], fields), 1, place))
        except Fault:
            return "no row"
    return large(rows) if rows else "no row"


def row_line(numbered):
    """Returns a row as the text of a table."""
    fields = ",".join(f"{name}={value}" for name, value in numbered.row.fields.items())
    return "%d %d %d" % numbered.key() + f"|{','.join(numbered.row.labels)}|{fields}"


class Column:
    """A column whose items may be changed one by one."""

    def __init__(self, name, values):
        self.name, self.values, self.kind, self.body = name, values, kind_of(values), put_body(values)
        self.filter = put_filter(column_filter(values))

    def to_bytes(self):
        return text(self.name, 2) + bytes([self.kind]) + self.filter + self.body


class Draft:
    """The items of a block, of which some are changed."""

    def __init__(self, rows):
        self.labels, self.keys = in_order(rows[0].row.labels), [numbered.key() for numbered in rows]
        self.columns = [Column(name, values_of(rows, name)) for name in names_of(rows)]

    def to_bytes(self):
        labels = b"".join(text(name, 2) + text(value, 4) for name, value in self.labels)
        counts = unsigned(len(self.keys), 2) + unsigned(len(self.columns), 2)
        columns = b"".join(column.to_bytes() for column in self.columns)
        return unsigned(len(self.labels), 2) + labels + counts + put_keys(self.keys) + columns

    def change(self, random):
        random.choice([self.change_labels, self.change_keys, self.change_columns, self.change_column])(random)

    def change_labels(self, random):
        """Shuffles the labels, or puts in one more, which may be a label that is there or no label of the rows."""
        random.shuffle(self.labels)
        if random.random() < 0.7:
            others = [("app", "x y"), ("app", ""), ("", ""), ("", "x"), ("b", "7"), ("zz", "")]
            self.labels.insert(random.randint(0, len(self.labels)), random.choice(self.labels + others))

    def change_keys(self, random):
        """Gives a row another key, or that of another row, or puts the keys in another order."""
        place = random.randrange(len(self.keys))
        time, batch, number = self.keys[place]
        others = [(-1, batch, number), (time + 1, batch, number), (time, 0, number), (time, batch, 9), self.keys[-1]]
        self.keys[place] = random.choice([key for key in others if key[0] < 2**63])
        if random.random() < 0.5:
            random.shuffle(self.keys)

    def change_columns(self, random):
        """Puts the columns in another order, or puts in one that is there, has no value, or no name of a field."""
        if random.random() < 0.5:
            random.shuffle(self.columns)
        names = ["", "_time", "_stream", "_stream_id", "n" * 128, "n" * 129, "b"]
        names += [column.name for column in self.columns]
        value = random.choice(["", "", "x", "7"])
        column = Column(random.choice(names), [value for _ in self.keys])
        self.columns.insert(random.randint(0, len(self.columns)), column)

    def change_column(self, random):
        """Gives a column another kind, or another filter."""
        column = random.choice(self.columns)
        if random.random() < 0.4:
            column.kind, column.body = TEXTS, put_texts(column.values)
        elif random.random() < 0.4:
            members = list(dict.fromkeys(column.values)) + random.choice([[], ["more"]])
            codes = bytes(members.index(value) for value in column.values)
            column.body = bytes([len(members)]) + b"".join(text(member, 2) for member in members) + codes
            column.kind = DICTIONARY
        else:
            words = column.filter[4:] + random.choice([b"", bytes(8)])
            place = random.randrange(len(words) + 1)
            words = words[:place] + bytes(byte ^ 1 for byte in words[place : place + 1]) + words[place + 1 :]
            column.filter = unsigned(len(words) // 8, 4) + words


def cases(random):
    fields = [f"f{n}=1" for n in range(1001)]
    lines = ["", "= ", "= 00", "0 0 0||", "5 1 0||a=x;5 1 0||a=x", "5 1 1||a=x;5 1 0||a=x", "5 1 0|a|a=x;5 1 1||a=x"]
    lines += ["made 0 1", "made 4096 3", "made 4097 3", "made 1 65535", "wide 1 1000", "wide 1 1001", "wide 3 2001"]
    lines += ["wide 2 2000", "wide 1024 1024"] + [f"head 0 0 0||{','.join(fields[:count])}" for count in (1000, 1001)]
    lines += [f"head 0 0 0|c|c={'x' * length}" for length in (262143, 262144)]
    lines += [f"0 0 0||{'n' * length}=1" for length in (128, 129)]
    for _ in range(12):
        rows = some_rows(random)
        lines += [";".join(map(row_line, rows)), ";".join(map(row_line, random.sample(rows, len(rows))))]
        lines += [f"head {lines[-2]}", f"lent {lines[-2]}"]
        lines.append(f"batch {random.choice([0, 7, 2**64 - 1])} {lines[-4]}")
        lines += [f"= {copy.hex()}" for copy in [put_block(rows), *damaged_copies(put_block(rows)[:200], random, 20)]]
        for _ in range(12):
            draft = Draft(rows)
            for _ in range(random.choice([1, 1, 2])):
                draft.change(random)
            # whether the first of two columns without a name counts is not said
            if [column.name for column in draft.columns].count("") < 2:
                lines.append(f"= {draft.to_bytes().hex()}")
    return table(lines)
