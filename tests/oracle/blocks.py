"""Blocks of rows as bytes and back (docs/BYTES.md, "Block")."""
from typing import NamedTuple

from byte_items import Damaged, Items, check_spelling, cut_once, number_or, signed, text, unsigned
from columns import column_filter, put_body, kind_of, put_filter, take_body, take_filter, take_kind
from faults import Fault
from rows import Row
from values import in_order, set_field

ROWS, COLUMNS, CELLS = 4096, 2000, 1048576


class Numbered(NamedTuple):
    """A row with its batch and its place in it."""

    row: Row
    batch: int
    place: int

    def key(self):
        return self.row.time, self.batch, self.place


class Parts(NamedTuple):
    """What the items of a block say: labels as they stand, the keys, and the columns by name, with their values.

    A column is its name, the kind of its body, and the values.
    """

    labels: list
    keys: list
    columns: list


def numbered_of(key, fields, labels):
    """Returns the row that a table's texts say, or None if it keeps not the limits of a row."""
    time, rest = cut_once(key, " ")
    batch, place = cut_once(rest or "", " ")
    pairs = {}
    for field in fields.split(","):
        name, _, value = field.partition("=")
        if name:
            set_field(pairs, name, value)
    try:
        row = Row(time_of(time), labels.split(","), pairs)
    except Fault:
        return None
    return Numbered(row, number_or(batch, 0, 2**64), number_or(place or "", 0))


def time_of(word):
    """Returns the i64 that a word is, or 0."""
    if word.startswith("-"):
        return -number_or(word[1:], 0, 2**63 + 1)
    return number_or(word, 0, 2**63)


def names_of(rows):
    """Returns the names of the fields of rows, in byte order."""
    names = {name for numbered in rows for name in numbered.row.fields}
    return sorted(names, key=lambda name: name.encode("utf-8"))


def values_of(rows, name):
    return [numbered.row.fields.get(name, "") for numbered in rows]


def may_be_block(rows):
    """Returns whether rows are those of a block in some order."""
    names = len(names_of(rows))
    if not 1 <= len(rows) <= ROWS or names > COLUMNS or len(rows) * names > CELLS:
        return False
    if len({numbered.key()[1:] for numbered in rows}) < len(rows):
        return False
    return all(numbered.row.labels == rows[0].row.labels for numbered in rows)


def is_block(rows):
    """Returns whether rows are those of a block, in its order."""
    keys = [numbered.key() for numbered in rows]
    return may_be_block(rows) and keys == sorted(keys)


def put_labels(labels):
    pairs = in_order(labels)
    return unsigned(len(pairs), 2) + b"".join(text(name, 2) + text(value, 4) for name, value in pairs)


def put_keys(keys):
    times = b"".join(signed(time, 8) for time, _, _ in keys)
    batches = b"".join(unsigned(batch, 8) for _, batch, _ in keys)
    return times + batches + b"".join(unsigned(place, 4) for _, _, place in keys)


def put_named(name, values):
    """Returns the bytes of a column with its name and its filter."""
    front = text(name, 2) + unsigned(kind_of(values), 1)
    return front + put_filter(column_filter(values)) + put_body(values)


def put_block(rows):
    """Returns the bytes of the block of these rows."""
    rows = sorted(rows, key=Numbered.key)
    names = names_of(rows)
    front = put_labels(rows[0].row.labels) + unsigned(len(rows), 2) + unsigned(len(names), 2)
    columns = b"".join(put_named(name, values_of(rows, name)) for name in names)
    return front + put_keys([numbered.key() for numbered in rows]) + columns


def take_parts(items):
    """Returns what the items of a block say, which may be no block."""
    labels = [(items.text(2), items.text(4)) for _ in range(items.unsigned(2))]
    rows, columns = items.unsigned(2), items.unsigned(2)
    times = [items.signed(8) for _ in range(rows)]
    batches = [items.unsigned(8) for _ in range(rows)]
    places = [items.unsigned(4) for _ in range(rows)]
    named = [take_named(items, rows) for _ in range(columns)]
    items.end()
    return Parts(labels, list(zip(times, batches, places)), named)


def take_named(items, rows):
    name, kind = items.text(2), take_kind(items)
    take_filter(items)
    return name, kind, take_body(items, kind, rows)


def rows_of(parts):
    """Returns the rows that parts say, or None if one of them is no row of a block in the stream of the labels."""
    # of two columns of one name the later counts
    columns, labels = {name: values for name, _, values in parts.columns}, dict(parts.labels)
    rows = []
    for n, (time, batch, place) in enumerate(parts.keys):
        fields = {name: values[n] for name, values in columns.items() if values[n]}
        try:
            row = Row(time, labels, fields)
        except Fault:
            return None
        # an empty name or a computed one is no name of a field
        if "" in fields or row.fields != fields or row.labels != labels:
            return None
        rows.append(Numbered(row, batch, place))
    return rows


def read_block(data):
    """Returns the rows, in order, of the block whose spelling the bytes are."""
    items = Items(data)
    rows = rows_of(take_parts(items))
    if rows is None or not may_be_block(rows):
        raise Damaged(0)
    check_spelling(items, put_block(rows))
    return rows
