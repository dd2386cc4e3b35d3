"""The small notation for records and pipes in which tables are written."""
from making import OPERATIONS, extracting_pattern_of, pattern_of
from values import in_order, number, record_of


def pairs(text, between="&"):
    """Returns the names and values of fields as `name=value`. What has no name or no `=` is ignored."""
    fields = (tuple(field.split("=", 1)) for field in text.split(between) if "=" in field)
    return [field for field in fields if field[0]]


def record(text):
    return record_of(pairs(text))


def record_text(record_):
    return "&".join(f"{name}={value}" for name, value in in_order(record_))


def part(parts, letters):
    """Returns what stands after these letters in the first of the words that begins with them, or None."""
    for word in parts.split(" "):
        if word.startswith(letters):
            return word.removeprefix(letters)
    return None


def count(parts, letters, otherwise=None):
    """Returns the number after these letters, which is below 2^64."""
    return whole(part(parts, letters) or "", otherwise)


def whole(text, otherwise):
    """Returns the number below 2^64 that a text is, or another one if it is none."""
    return int(text) if text.isascii() and text.isdigit() and int(text) < 2**64 else otherwise


def names(text):
    return text.split(",") if text else []


def sort(parts):
    keys = [(key.removeprefix("-"), key.startswith("-")) for key in (part(parts, "by=") or "").split(",")]
    return "Sort", keys, count(parts, "limit="), count(parts, "offset=", 0)


def uniq(parts, names_):
    return "Uniq", names_, part(parts, "hits") is not None, count(parts, "limit=")


def top(parts, names_):
    return "Top", count(parts, "n=", 10), names_


def stats(words):
    keys, functions = [], []
    for word in words.split(" "):
        if word.startswith("by="):
            name, colon, step = word.removeprefix("by=").partition(":")
            keys.append((name, int(step) if colon else None))
        elif function_ := function(word):
            functions.append(function_)
    return "Stats", keys, functions


CALLS = ("count", "count_empty", "count_uniq", "sum", "min", "max", "uniq_values")


def function(word):
    """Returns the function of `call:names>name`, with the filter after a `?`. None if it is none."""
    word, question, test = word.partition("?")
    call, arrow, name = word.partition(">")
    call, _, fields = call.partition(":")
    if not arrow or call not in CALLS:
        return None
    return call, names(fields), filter_of(test) if question else None, name


def filter_of(test):
    if "=" in test:
        field, _, text = test.partition("=")
        return "Exact", field, text
    if "!" in test:
        field, _, text = test.partition("!")
        return "Not", ("Exact", field, text)
    field, _, pattern = test.partition("~")
    return "Regex", field, pattern


def extract(field, text):
    """Returns the pipe, or None where the text is no pattern of it."""
    pattern = extracting_pattern_of(text)
    return pattern and ("Extract", pattern, field)


def format_(name, text):
    """Returns the pipe, or None where the text is no pattern."""
    pattern = pattern_of(text)
    return None if pattern is None else ("Format", pattern, name)


def math(words):
    """Returns the pipe of words `expression>name`. One that has no `>`, or is no expression, is left out."""
    items = []
    for word in words.split(" "):
        parts, arrow, name = word.partition(">")
        expression = expression_of(parts.split(","))
        if arrow and expression:
            items.append((expression, name))
    return "Math", items


def expression_of(parts):
    """Returns the expression of operands and operators, each operator after its two operands. None if it is none."""
    operands = []
    for part in parts:
        if part not in OPERATIONS:
            operands.append(("Named", part) if number(part) is None else ("Whole", number(part)))
        elif len(operands) < 2:
            return None
        else:
            operands[-2:] = [("Two", part, *operands[-2:])]
    return operands[-1]


def pairs_of_names(text):
    return [tuple(pair.split(">", 1)) if ">" in pair else (pair, pair) for pair in text.split(",")]


def pipe(text):
    """Returns the pipe of a word and its parts, or None if there is none of that word."""
    word, _, rest = text.partition(" ")
    if word in ("fields", "delete"):
        return word.capitalize(), names(rest)
    if word in ("rename", "copy"):
        return word.capitalize(), pairs_of_names(rest)
    if word in ("limit", "offset"):
        return word.capitalize(), whole(rest, 0)
    if word in ("extract", "format"):
        name, _, text = rest.partition(" ")
        return extract(name, text) if word == "extract" else format_(name, text)
    if word == "len":
        return "Len", *pairs_of_names(rest)[0]
    if word == "math":
        return math(rest)
    if word == "sort":
        return sort(rest)
    if word == "uniq":
        return uniq(rest, names(part(rest, "by=") or ""))
    if word == "top":
        return top(rest, names(part(rest, "by=") or ""))
    if word == "stats":
        return stats(rest)
    return ("Keep", filter_of(rest)) if word == "filter" else None


def pipes(text):
    """Returns the pipes with `|` between them."""
    found = map(pipe, text.split("|"))
    return [pipe_ for pipe_ in found if pipe_]
