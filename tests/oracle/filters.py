"""Filters: trees of tuples, and whether one holds for a row or a record.

A filter is its kind and its parts: `("Phrase", field, text)`, `("Not", filter)`, `("All2", filters)`. Without a row's
time and labels, as in a record, only filters on fields make sense; a record has no labels.
"""
from patterns import Pattern
from values import number
from words import has_in_order, has_phrase

GREATEST = 2**127 - 1
LEAST = -(2**127)


class Subject:
    """What a filter is asked of: the function `value` from names to values, a time, and labels."""

    def __init__(self, value, time=None, labels=None):
        self.value, self.time, self.labels = value, time, labels or {}


def of_row(row):
    return Subject(row.value, row.time, row.labels)


def of_record(record):
    return Subject(lambda name: record.get(name, ""))


def between(low, value, high):
    return low.encode("utf-8") <= value.encode("utf-8") < high.encode("utf-8")


def has_folded(text, value):
    """Returns whether a value has a phrase in any case of its letters. An empty phrase holds for an empty value."""
    return has_phrase(text.casefold(), value.casefold()) if text else not value


def is_within(low, value, high):
    return number(value) is not None and low <= number(value) <= high


# whether the filter of a kind with these parts holds for a value
OF_VALUE = {
    "Any": lambda value: value != "",
    "Empty": lambda value: value == "",
    "Phrase": lambda value, text: has_phrase(text, value),
    "Prefix": lambda value, text: has_phrase(text, value, any_end=True) if text else value != "",
    "Exact": lambda value, text: value == text,
    "ExactPrefix": lambda value, text: value.startswith(text),
    "OneOf": lambda value, texts: value in texts,
    "Regex": lambda value, pattern: Pattern(pattern).is_found(value),
    "Fold": lambda value, text: has_folded(text, value),
    "Seq": lambda value, texts: has_in_order(texts, value),
    "Length": lambda value, low, high: low <= len(value) <= high,
    "Between": lambda value, low, high: between(low, value, high),
    "Range": lambda value, low, high: is_within(low, value, high),
}


def holds(filter_, subject, now=None):
    """Returns whether a filter holds for a subject, when the clock reads `now`."""
    kind, *parts = filter_
    if kind == "All":
        return True
    if kind == "Not":
        return not holds(parts[0], subject, now)
    if kind in ("All2", "Any2"):
        return (all if kind == "All2" else any)(holds(part, subject, now) for part in parts[0])
    if kind in ("Last", "Times") and subject.time is None:
        return False
    if kind == "Last":
        return now - parts[0] < subject.time <= now
    if kind == "Times":
        return parts[0] <= subject.time <= parts[1]
    if kind == "Select":
        return not parts[0] or any(all(label_holds(test, subject.labels) for test in group) for group in parts[0])
    return OF_VALUE[kind](subject.value(parts[0]), *parts[1:])


def label_holds(test, labels):
    """Returns whether a test of a label holds. A missing label is empty."""
    name, how, text = test
    value = labels.get(name, "")
    if how in ("Is", "IsNot"):
        return (value == text) == (how == "Is")
    return Pattern(text).is_whole(value) == (how == "Matches")


def patterns_of(filter_):
    """Returns the patterns of a filter from left to right."""
    kind, *parts = filter_
    if kind == "Regex":
        return [parts[1]]
    if kind == "Not":
        return patterns_of(parts[0])
    if kind in ("All2", "Any2"):
        return [pattern for part in parts[0] for pattern in patterns_of(part)]
    tests = [test for group in parts[0] for test in group] if kind == "Select" else []
    return [text for _, how, text in tests if how in ("Matches", "MatchesNot")]
