"""Queries as texts: what a filter or a pipe, as a tuple, is written as."""
import re

from filters import GREATEST, LEAST

KEYWORDS = ("and", "or", "not", "asc", "desc", "as")
HOWS = {"Is": "=", "IsNot": "!=", "Matches": "=~", "MatchesNot": "!~"}
# of each kind of filter of one field how its texts are written
LEAVES = {
    "Any": "*", "Empty": '""', "Phrase": "{}", "Prefix": "{}*", "Exact": "={}", "ExactPrefix": "={}*", "Regex": "~{}",
    "Fold": "i({})", "Between": "string_range({}, {})",
}  # fmt: skip


def quoted(text):
    """Returns a text in quotes of a kind that it has not, or else with escapes."""
    for quote in "'\"`":
        if quote not in text and (quote == "`" or "\\" not in text):
            return quote + text + quote
    return '"' + text.replace("\\", "\\\\").replace('"', '\\"') + '"'


def quoted_all(texts):
    return ", ".join(map(quoted, texts))


def filter_query(filter_):
    """Returns the text of a filter. Not every filter is read again from its text."""
    kind, *parts = filter_
    if kind == "All":
        return "*"
    if kind == "Not":
        return "!" + filter_query(parts[0])
    if kind in ("All2", "Any2"):
        return "(" + {"All2": " ", "Any2": " or "}[kind].join(map(filter_query, parts[0])) + ")"
    if kind == "Select":
        return "{" + " or ".join(", ".join(map(label_query, group)) for group in parts[0]) + "}"
    return name_query(parts[0]) + ":" + leaf_query(kind, parts[1:])


def label_query(test):
    name, how, text = test
    return name_query(name) + HOWS[how] + quoted(text)


def leaf_query(kind, parts):
    if kind in ("OneOf", "Seq"):
        return f"{'in' if kind == 'OneOf' else 'seq'}({quoted_all(parts[0])})"
    if kind == "Length":
        return f"len_range({parts[0]}, {'inf' if parts[1] == 2**64 - 1 else parts[1]})"
    if kind == "Range":
        return range_query(*parts)
    return LEAVES[kind].format(*map(quoted, parts))


def range_query(low, high):
    """Returns the interval between two ends. One that is just above or below the numbers of 64 bits is excluded."""
    left, low = ("(", low - 1) if low == 2**63 else ("[", low)
    right, high = (")", high + 1) if high == -(2**63) - 1 else ("]", high)
    ends = ({LEAST: "-inf", GREATEST: "inf"}.get(end, end) for end in (low, high))
    return f"range{left}{', '.join(map(str, ends))}{right}"


def name_query(name):
    """Returns a name, without quotes where it is letters and digits."""
    return name if re.fullmatch("[a-z0-9_]+", name) and name not in KEYWORDS else quoted(name)


def names_query(names):
    return "(" + ", ".join(map(name_query, names)) + ")"


def pipe_query(kind, *parts):
    """Returns the text of a `sort`, `uniq`, `top` or `stats`."""
    if kind == "Top":
        return "top " + (f"{parts[0]} " if parts[0] != 10 else "") + f"by {names_query(parts[1])}"
    if kind == "Uniq":
        return f"uniq by {names_query(parts[0])}" + " with hits" * parts[1] + limit_query(parts[2])
    if kind == "Sort":
        keys = ", ".join(name_query(name) + " desc" * down for name, down in parts[0])
        return f"sort by ({keys})" + (f" offset {parts[2]}" if parts[2] else "") + limit_query(parts[1])
    keys = ", ".join(name_query(name) + ("" if step is None else f":{step}ns") for name, step in parts[0])
    return "stats " + (f"by ({keys}) " if keys else "") + ", ".join(function_query(*function) for function in parts[1])


def limit_query(limit):
    return "" if limit is None else f" limit {limit}"


def function_query(call, names, only, name):
    condition = f" if ({filter_query(only)})" if only else ""
    return f"{call}{names_query(names)}{condition} as {name_query(name)}"
