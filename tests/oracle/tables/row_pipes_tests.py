"""What the pipes that set fields make of records."""
from chance import NUMBERS, TEXTS, lines_of, some, table, text_of
from faults import Fault
from making import extract, format_, length, math, pattern_of
from notation import record, record_text
from values import number

OPERATORS = ("+", "-", "*", "div", "mod")


def answers(stdin):
    return table(answer(*(line + "\t\t\t").split("\t")[:4]) for line in lines_of(stdin))


def answer(word, first, second, fields):
    made = record(fields)
    try:
        if word == "extract":
            extract(made, pieces_of(first), second)
        elif word == "format":
            format_(made, pieces_of(first), second)
        elif word == "len":
            length(made, first, second)
        elif word == "math":
            math(made, [item_of(item) for item in first.split(",") if "=" in item])
        elif word == "sum":
            math(made, [(sum_of(int(first)), second)])
        else:
            return "no pipe"
    except Fault as fault:
        return f"Overflow in {fault.at}" if fault.name == "Overflow" else fault.name
    return record_text(made)


def pieces_of(text):
    pattern = pattern_of(text)
    if pattern is None:
        raise Fault("BadPattern")
    return pattern


def item_of(text):
    """Returns an item: an expression, whose operators stand after what they work on, and a name."""
    name, _, words = text.partition("=")
    stack = []
    for word in words.split(" "):
        if word in OPERATORS:
            right, left = stack.pop(), stack.pop()
            stack.append(("Two", word, left, right))
        else:
            whole = number(word)
            stack.append(("Named", word.removeprefix("$")) if whole is None else ("Whole", whole))
    return stack.pop(), name


def sum_of(count):
    expression = ("Named", "a")
    for _ in range(1, count):
        expression = ("Two", "+", expression, ("Named", "a"))
    return expression


def pattern(random, extracting):
    """Returns a pattern. Where values are taken out, a text stands between each two names."""
    names = ("a", "b", "c", "_", "", "é")
    texts = [text for text in ("=", " ", "took ", ">", *TEXTS) if text and not set(text) & set("<\t&")]
    text = random.choice(("", random.choice(texts)))
    for at in range(random.randint(1, 4)):
        between = random.choice(texts) if extracting or random.random() < 0.7 else ""
        text += (between if at else "") + f"<{random.choice(names)}>"
    return text + random.choice(("", random.choice(texts)))


def expression(random, depth):
    if depth == 0 or random.random() < 0.2:
        return random.choice(("a", "b", "c", "none", "$7", "0", "1", "-1", "2", "-2", str(2**63 - 1), str(-(2**63))))
    return f"{expression(random, depth - 1)} {expression(random, depth - 1)} {random.choice(OPERATORS)}"


def case(random):
    names = ("a", "b", "c", "_msg", "é", "")
    values = [value for value in (*TEXTS, "a=1 b=22 took 3 ms", "日é日 aab") if not set(value) & set("&\t")]
    numbers = [*NUMBERS, "2", "-2", "3", "-7", "1000000007", str(2**62), str(-(2**62))]
    word = random.choice(("extract", "format", "len", "math", "math"))
    fields = "&".join(
        f"{random.choice(names)}={random.choice(numbers if word == 'math' else [*values, text_of(random)])}"
        for _ in range(random.randint(0, 5))
    )
    if word == "math":
        items = some(random, names[:4], 3)
        first, second = ",".join(f"{name}={expression(random, random.randint(0, 3))}" for name in items), ""
    elif word == "len":
        first, second = random.choice(names), random.choice(names)
    else:
        first, second = pattern(random, word == "extract"), random.choice(names)
    return "\t".join((word, first, second, fields))


def cases(random):
    return table(case(random) for _ in range(1000))
