"""The pipes that set fields of a record: their patterns and expressions, and what they make of a record.

A pattern is a list of pieces: `("text", text)` or `("name", name)`, where no text is empty and no two stand side by
side. An expression is `("Whole", number)`, `("Named", field)`, or `("Two", operator, left, right)` with an operator of
`OPERATIONS`.
"""
import re

from faults import Fault
from values import number, set_field
from words import size

# a name goes from `<` to the next `>`, and may have any other character in it
NAME = re.compile("<([^>]*)>")


def pattern_of(text):
    """Returns the pattern that a text is, or None if a `<` of it has no later `>`."""
    texts_and_names = enumerate(NAME.split(text))
    pieces = [("name" if place % 2 else "text", piece) for place, piece in texts_and_names]
    pieces = [piece for piece in pieces if piece != ("text", "")]
    return None if any(kind == "text" and "<" in piece for kind, piece in pieces) else pieces


def extracting_pattern_of(text):
    """Returns the pattern that a text is, or None if it has no name, or two without a text between."""
    pieces = pattern_of(text) or []
    kinds = [kind for kind, _ in pieces]
    return pieces if "name" in kinds and ("name", "name") not in zip(kinds, kinds[1:]) else None


def extracted(pattern, value):
    """Returns the names of a pattern with their parts of a value.

    The name before a text that is not found has an empty part, and so has each later name.
    """
    parts, name = [], ""
    for kind, piece in pattern:
        if kind == "name":
            name = piece
        else:
            part, found, value = value.partition(piece)
            parts.append((name, part if found else ""))
            name = ""
    return [*parts, (name, value)]


def extract(record, pattern, field):
    for name, part in extracted(pattern, record.get(field, "")):
        if name != "_":
            set_field(record, name, part)


def format_(record, pattern, name):
    texts = [piece if kind == "text" else record.get(piece, "") for kind, piece in pattern]
    set_field(record, name, "".join(texts))


def length(record, field, name):
    set_field(record, name, str(size(record.get(field, ""))))


def quotient(left, right):
    """Returns the quotient without its fraction."""
    return abs(left) // abs(right) * (1 if (left < 0) == (right < 0) else -1)


def remainder(left, right):
    """Returns what the quotient leaves. It has the sign of the left number."""
    return abs(left) % abs(right) * (-1 if left < 0 else 1)


OPERATIONS = {
    "+": lambda left, right: left + right,
    "-": lambda left, right: left - right,
    "*": lambda left, right: left * right,
    "div": lambda left, right: quotient(left, right) if right else None,
    "mod": lambda left, right: remainder(left, right) if right else None,
}


def worth(record, expression, name):
    """Returns the number that an expression is, or None. Raises `Overflow` with the name that the number is for.

    A sum of many numbers lies deep on the left. That side is walked without a recursion.
    """
    operations = []
    while expression[0] == "Two":
        _, operator, expression, right = expression
        operations.append((operator, right))
    kind, operand = expression
    result = operand if kind == "Whole" else number(record.get(operand, ""))
    for operator, right in reversed(operations):
        result = operated(operator, result, worth(record, right, name), name)
    return result


def operated(operator, left, right, name):
    """Returns what an operation on two numbers gives: None where one is missing, or where it divides by zero."""
    result = None if left is None or right is None else OPERATIONS[operator](left, right)
    if result is not None and not -(2**63) <= result < 2**63:
        raise Fault("Overflow", name)
    return result


def math(record, items):
    for expression, name in items:
        result = worth(record, expression, name)
        set_field(record, name, "" if result is None else str(result))


MAKINGS = {"Extract": extract, "Format": format_, "Len": length, "Math": math}


def made(record, kind, parts):
    """Returns the record with the fields that a pipe of this kind sets."""
    record = dict(record)
    MAKINGS[kind](record, *parts)
    return record
