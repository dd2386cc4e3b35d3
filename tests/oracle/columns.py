"""Columns of integers, of texts, and of the values of a field, as bytes and back (docs/BYTES.md)."""
import re

from bloom_filters import filter_of
from byte_items import Items, check_spelling, signed, text, unsigned
from values import number
from words import words

ASCII_WORDS = re.compile(rb"\w+")  # of bytes, so letters, digits and underscores of ASCII
CONSTANT, INTEGERS, DICTIONARY, TEXTS = range(4)
# a dictionary has at most this many values, each of at most this many bytes
MOST, LONGEST = 255, 256


def put_integers(values):
    """Returns the bytes of a column of integers."""
    least = min(values, default=0)
    widest = max(values, default=0) - least
    width = next(width for width in (1, 2, 4, 8) if widest < 256**width)
    return unsigned(width, 1) + signed(least, 8) + b"".join(unsigned(value - least, width) for value in values)


def take_integers(items, rows):
    """Returns the integers of a column at the front of items. They may be spelled in another way than the one."""
    width = items.unsigned(1)
    if width not in (1, 2, 4, 8):
        items.damaged()
    least = items.signed(8)
    return [least + items.below(width, 2**63 - least) for _ in range(rows)]


def put_texts(values):
    """Returns the bytes of a column of texts."""
    data = [value.encode("utf-8") for value in values]
    ends = [0]
    for value in data:
        ends.append(ends[-1] + len(value))
    return b"".join(unsigned(end, 4) for end in ends) + b"".join(data)


def take_texts(items, rows):
    """Returns the texts of a column at the front of items."""
    ends = []
    for _ in range(rows + 1):
        end = items.unsigned(4)
        if end < ends[-1] if ends else end > 0:
            items.damaged()
        ends.append(end)
    data = items.item(ends[-1])
    return [items.decoded(data[start:end]) for start, end in zip(ends, ends[1:])]


def distinct(values):
    """Returns the distinct values in byte order."""
    return sorted(set(values), key=lambda value: value.encode("utf-8"))


def kind_of(values):
    """Returns the first kind that fits values."""
    members = distinct(values)
    if len(members) == 1 and members[0]:
        return CONSTANT
    if all(number(value) is not None for value in members):
        return INTEGERS
    if len(members) <= MOST and all(len(member.encode("utf-8")) <= LONGEST for member in members):
        return DICTIONARY
    return TEXTS


def put_body(values):
    """Returns the body of a column of values, in the first kind that fits."""
    kind, members = kind_of(values), distinct(values)
    if kind == CONSTANT:
        return text(members[0], 4)
    if kind == INTEGERS:
        return put_integers([number(value) for value in values])
    if kind == DICTIONARY:
        codes = {member: code for code, member in enumerate(members)}
        return bytes([len(members)]) + b"".join(text(member, 2) for member in members) + bytes(map(codes.get, values))
    return put_texts(values)


def put_column(values):
    """Returns the kind of a column and its body."""
    return bytes([kind_of(values)]) + put_body(values)


def take_kind(items):
    return items.below(1, 4)


def take_body(items, kind, rows):
    """Returns the values that a body of a kind says."""
    if kind == CONSTANT:
        return [items.text(4)] * rows
    if kind == INTEGERS:
        return [str(value) for value in take_integers(items, rows)]
    if kind == DICTIONARY:
        count = items.unsigned(1)
        members = [items.text(2) for _ in range(count)]
        return [members[code] for code in items.codes(rows, count)]
    return take_texts(items, rows)


def read_column(data, rows):
    """Returns the values of the column of this many rows whose spelling the bytes are."""
    items = Items(data)
    values = take_body(items, take_kind(items), rows)
    items.end()
    check_spelling(items, put_column(values))
    return values


def column_filter(values):
    """Returns the filter of the distinct words of values."""
    found = set()
    for value in set(values):
        data = value.encode("utf-8")
        if value.isascii():
            found.update(ASCII_WORDS.findall(data))
        else:
            found.update(data[start:end] for start, end in words(value))
    return filter_of(found)


def put_filter(bloom):
    """Returns how many words of 64 bits a filter has, and these."""
    return unsigned(bloom.count(), 4) + bloom.to_bytes()


def take_filter(items):
    """Takes a filter from the front of items, and returns how many words of 64 bits it has."""
    count = items.unsigned(4)
    for _ in range(count):
        items.unsigned(8)
    return count


def fitting(line, limit):
    """Returns the values of a list with commas, but for those with which they would have more bytes than this."""
    values, left = [], limit
    for value in line.split(","):
        size = len(value.encode("utf-8"))
        if size <= left:
            values.append(value)
            left -= size
    return values
