"""Numbers, the order of values, and records: fields by their names, none of them empty."""
import re

STAMP = re.compile("([0-9]{4}-[0-9]{2}-[0-9]{2}T[0-9]{2}:[0-9]{2}:[0-9]{2}(?:[.][0-9]{0,8}[1-9])?)Z")
NUMBER = re.compile("0|-?[1-9][0-9]*")
ESCAPES = {'"': '\\"', "\\": "\\\\", "\b": "\\b", "\t": "\\t", "\n": "\\n", "\f": "\\f", "\r": "\\r"}


def number(text):
    """Returns the integer of 64 bits whose decimal text this is, or None."""
    if len(text) > 20 or not NUMBER.fullmatch(text):
        return None
    return int(text) if -(2**63) <= int(text) < 2**63 else None


def value_key(text):
    """Returns a key by which values are ordered: numbers, then times, then all other texts by bytes."""
    if number(text) is not None:
        return 0, number(text)
    stamp = STAMP.fullmatch(text)
    return (1, stamp[1].encode()) if stamp else (2, text.encode("utf-8"))


def tuple_key(values):
    return [value_key(value) for value in values]


def set_field(fields, name, value):
    """Sets a field. An empty value is a missing field, and no field has an empty name."""
    fields.pop(name, None)
    if name and value:
        fields[name] = value


def record_of(pairs):
    """Returns the record of names and values, of which the later ones count."""
    record = {}
    for name, value in pairs:
        set_field(record, name, value)
    return record


def in_order(fields):
    """Returns the names and values of fields in the byte order of their names."""
    return sorted(fields.items(), key=lambda field: field[0].encode("utf-8"))


def quoted(text):
    """Returns a text as a JSON string."""
    shown = (ESCAPES.get(c) or (f"\\u{ord(c):04x}" if c < " " else c) for c in text)
    return '"' + "".join(shown) + '"'


def json_line(record):
    """Returns a record as a line: a JSON object with its keys in byte order."""
    return "{" + ",".join(quoted(name) + ":" + quoted(value) for name, value in in_order(record)) + "}\n"
