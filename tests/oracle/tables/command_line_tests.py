"""What the words of a command line ask for."""
from chance import lines_of, mutated, table
from values import number

USAGE = "usage: pipe, load, query, trial or serve"
# by command: the options that are needed, those that may be left out, and how many other words there are
NEEDED = {"pipe": (), "load": ("--dir",), "query": ("--dir",), "trial": (), "serve": ("--dir", "--http")}
FREE = {
    "pipe": ("--stream-fields",), "load": ("--stream-fields",), "query": (), "trial": (),
    "serve": ("--syslog", "--workers"),
}  # fmt: skip
PLACES = {"pipe": 1, "load": 0, "query": 1, "trial": 2, "serve": 0}


class Usage(Exception):
    """The words are no command."""


def answers(stdin):
    return table(f"{line} -> {answer(line)}" for line in lines_of(stdin))


def answer(line):
    try:
        return read(["" if word == "''" else word for word in line.split(" ")] if line else [])
    except Usage:
        return USAGE


def read(words):
    """Returns what the words of a command ask for."""
    if not words or words[0] not in PLACES:
        raise Usage
    command = words[0]
    options, places = taken_apart(words[1:], NEEDED[command] + FREE[command])
    if len(places) != PLACES[command] or not all(name in options for name in NEEDED[command]):
        raise Usage
    if command == "pipe":
        return f"pipe <{places[0]}>" + option_text(options, "--stream-fields", "stream fields")
    if command == "load":
        return f"load <{options['--dir']}>" + option_text(options, "--stream-fields", "stream fields")
    if command == "query":
        return f"query <{options['--dir']}> <{places[0]}>"
    if command == "trial":
        return f"trial {numeral(places[0], 0, 2**63 - 1)} {numeral(places[1], 0, 1000000)}"
    workers = numeral(options.get("--workers", "4"), 1, 32 if "--syslog" in options else 64)
    return f"serve {workers} <{options['--dir']}> <{options['--http']}>" + option_text(options, "--syslog", "syslog")


def taken_apart(words, known):
    """Returns the options with their values, and the other words. After `--` no word is an option."""
    options, places, words = {}, [], list(words)
    while words:
        word = words.pop(0)
        if word == "--":
            return options, places + words
        if word == "-" or not word.startswith("-"):
            places.append(word)
            continue
        name, equals, value = word.partition("=")
        if name not in known or name in options:
            raise Usage
        if not equals:
            if not words or (words[0].startswith("-") and words[0] != "-"):
                raise Usage
            value = words.pop(0)
        options[name] = value
    return options, places


def numeral(text, low, high):
    if number(text) is None or not low <= number(text) <= high:
        raise Usage
    return number(text)


def option_text(options, name, shown):
    return f", {shown} <{options[name]}>" if name in options else ""


NAMES = (
    "--stream-fields", "--dir", "--http", "--syslog", "--workers", "--seed", "--help", "-h", "-x", "--", "--http=",
    "--Http", "--dir=", "--Dir",
)  # fmt: skip
VALUES = (
    "''", "-", "0", "1", "4", "32", "33", "64", "65", "007", "+1", "-1", "1.0", "a,b", "127.0.0.1:0", "٣", "é", "=", "a=b",
    "9223372036854775807", "9223372036854775808", "1000000", "1000001", "9" * 40,
)  # fmt: skip


def cases(random):
    lines = ["", "''", "-", "--"]
    for command in ("pipe", "trial", "serve", "load", "query", "Pipe", "pip"):
        for _ in range(60):
            count = random.randint(0, 4)
            words = [random.choice(VALUES) for _ in range(count)]
            for _ in range(random.randint(0, 3)):
                at = random.randint(0, len(words))
                option = random.choice(NAMES) + random.choice(("", "=" + random.choice(VALUES[1:])))
                words.insert(at, option)
            lines.append(" ".join([command, *words]))
    for _ in range(120):
        count = random.choice(VALUES[1:])
        workers = random.choice(("", "", f" --workers {count}", f" --workers={count}"))
        syslog = random.choice(("", " --syslog b", " --syslog=", " --syslog"))
        directory = random.choice((" --dir d", " --dir=d", " --dir=", " --dir d", ""))
        lines.append("serve" + directory + random.choice((" --http a", " --http=a")) + syslog + workers)
        lines.append("serve" + workers + syslog + " --http 127.0.0.1:9428" + directory)
        lines.append(mutated(random, lines[-1], "-=hdt1").strip().replace("  ", " "))
        fields = random.choice(("", " --stream-fields a,b", " --stream-fields=", " --stream-fields"))
        lines.append("load" + random.choice((directory + fields, fields + directory)))
        lines.append(mutated(random, lines[-1], "-=dir").strip().replace("  ", " "))
        word = random.choice(("", " error", " -- -x", " ''", " -"))
        lines.append("query" + random.choice((directory + word, word + directory)))
        lines.append(mutated(random, lines[-1], "-=dir").strip().replace("  ", " "))
        lines.append(f"trial {random.choice(VALUES)} {random.choice(VALUES)}")
    return table(lines)
