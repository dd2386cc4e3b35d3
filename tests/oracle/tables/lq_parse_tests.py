"""What queries say, or why they are none, and their tokens."""
from chance import TEXTS, lines_of, mutated, table, text_of
from faults import Fault
from queries import parse
from query_cases import deep_queries, queries
from tokens import tokens_of

TOKENS = "#tokens "

LEAVES = {
    "Any": "some", "Empty": "empty", "OneOf": "in", "Seq": "seq", "Phrase": "phrase", "Prefix": "prefix",
    "Exact": "exact", "ExactPrefix": "exact_prefix", "Regex": "regex", "Fold": "fold", "Between": "between",
    "Length": "length", "Range": "range",
}  # fmt: skip
HOWS = {"Is": "=", "IsNot": "!=", "Matches": "=~", "MatchesNot": "!~"}
PICTURES = str.maketrans({"\n": "␊", "\r": "␍", "\t": "␉", "\0": "␀"})
CONTROLS = {0x2400 + c: chr(c) for c in range(32)}


def answers(stdin):
    return table(answer(line.translate(CONTROLS)) for line in lines_of(stdin))


def answer(line):
    try:
        return tokens(line.removeprefix(TOKENS)) if line.startswith(TOKENS) else said(line)
    except Fault as fault:
        return str(fault)


def said(query):
    filter_, pipes = parse(query)
    return filter_text(filter_) + "".join(" | " + pipe_text(*pipe) for pipe in pipes)


def tokens(query):
    return "".join(f"{kind(t)}{t.start}{'+' * t.glued}{shown(t.text)} " for t in tokens_of(query))


def kind(token):
    return {"Bare": "B", "Quoted": "Q"}.get(token.kind, token.spelled)


def shown(text):
    return f" <{text.translate(PICTURES)}>"


def all_shown(texts):
    return "".join(map(shown, texts))


def filter_text(filter_):
    kind, *parts = filter_
    if kind == "Not":
        return f"not({filter_text(parts[0])})"
    if kind in ("All2", "Any2"):
        return f"{kind[:3].lower()}({', '.join(map(filter_text, parts[0]))})"
    if kind in ("Length", "Range"):
        return LEAVES[kind] + shown(parts[0]) + f" {parts[1]} {parts[2]}"
    if kind in ("OneOf", "Seq"):
        return LEAVES[kind] + shown(parts[0]) + all_shown(parts[1])
    if kind in ("Last", "Times"):
        return " ".join([kind.lower(), *map(str, parts)])
    if kind == "Select":
        return "streams" + "".join(" {" + "".join(map(test_text, group)) + " }" for group in parts[0])
    return "everything" if kind == "All" else LEAVES[kind] + all_shown(parts)


def test_text(test):
    name, how, text = test
    return f"{shown(name)} {HOWS[how]}{shown(text)}"


def pipe_text(kind, *parts):
    if kind in ("Fields", "Delete"):
        return kind.lower() + all_shown(parts[0])
    if kind in ("Rename", "Copy"):
        return kind.lower() + "".join(f"{shown(a)} to{shown(b)}" for a, b in parts[0])
    if kind in ("Limit", "Offset"):
        return f"{kind.lower()} {parts[0]}"
    if kind == "Keep":
        return "keep " + filter_text(parts[0])
    if kind == "Top":
        return f"top {parts[0]}" + all_shown(parts[1])
    return OTHER_PIPES[kind](*parts)


def limit_text(limit):
    return "" if limit is None else f" limit {limit}"


def sort_text(keys, limit, offset):
    shown_keys = "".join(shown(name) + " desc" * down for name, down in keys)
    return f"sort{shown_keys} offset {offset}{limit_text(limit)}"


def uniq_text(names, hits, limit):
    return "uniq" + all_shown(names) + " hits" * hits + limit_text(limit)


def stats_text(keys, functions):
    shown_keys = "".join(shown(name) + ("" if step is None else f" by {step}") for name, step in keys)
    return "stats" + shown_keys + "".join(function_text(*function) for function in functions)


def function_text(call, names, only, name):
    condition = "" if only is None else " if " + filter_text(only)
    return f"; {call}{all_shown(names)}{condition} as{shown(name)}"


def extract_text(pattern, field):
    return f"extract from{shown(field)}" + pattern_text(pattern)


def format_text(pattern, name):
    return f"format as{shown(name)}" + pattern_text(pattern)


def pattern_text(pattern):
    return "".join(f" {kind}{shown(piece)}" for kind, piece in pattern)


def len_text(field, name):
    return f"len{shown(field)} as{shown(name)}"


def math_text(items):
    return "math" + "".join(f";{expression_text(expression)} as{shown(name)}" for expression, name in items)


def expression_text(expression):
    kind, *parts = expression
    if kind == "Two":
        operator, left, right = parts
        return f" ({expression_text(left)} {operator}{expression_text(right)})"
    return f" {parts[0]}" if kind == "Whole" else shown(parts[0])


OTHER_PIPES = {
    "Sort": sort_text, "Uniq": uniq_text, "Stats": stats_text, "Extract": extract_text, "Format": format_text,
    "Len": len_text, "Math": math_text,
}  # fmt: skip

LETTERS = "ab_9é日٣🙂\u0301 \u00a0\u2003./-|()[]{},:=!~*<>+\"'`\\nrt#$%&;?@^"


def cases_of_tokens(random):
    lines = ["", " ", "\\", '"', "''", "``", '"\\', '"\\"', "`\\`", '"\\x', '"\\x"', '"\\é" "', "\u3000a\u2028b"]
    for _ in range(250):
        quote = random.choice("\"'`")
        quoted = quote + text_of(random, "ab \\\\\"'`nrté", 6) + quote
        query = "".join(random.choice((text_of(random, LETTERS, 6), quoted, random.choice(TEXTS))) for _ in range(3))
        lines += [query, mutated(random, query, LETTERS)]
    lines += ["a" * 16384, "a" * 16385, "é" * 8192, "é" * 8192 + " ", "#" * 16385]
    return lines + ['"' + "a" * 16382 + '"', '"' + "a" * 16383, '"' + "a" * 16384]


def cases(random):
    lines = ["", " ", "*", "|", "* |", "a | b", "()", "a\u00a0b", "# a"]
    lines += ["a" * 16384, "a" * 16385, "é" * 8192, "é" * 8193, "a" + " | limit 1" * 100]
    lines += ["in(" + "a," * 300 + "a)", "a or " * 300 + "a", "* | fields " + "a," * 300 + "a"]
    lines += deep_queries() + queries(random, 400)
    return table(lines + [TOKENS + query for query in cases_of_tokens(random)])
