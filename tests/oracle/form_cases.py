"""Makes filters of one form each, and records whose values are near the texts of the filter."""
from chance import NUMBERS, STAMPS, TEXTS, some, text_of
from filters import GREATEST, LEAST

TEXT_FORMS = ("Phrase", "Prefix", "Exact", "ExactPrefix", "Fold", "Regex")
LIST_FORMS = ("OneOf", "Seq")
LABEL_FORMS = ("Is", "IsNot", "Matches", "MatchesNot")
FIELD_FORMS = ("Any", "Empty")
JOINED_FORMS = ("All2", "Any2")
FORMS = (
    *TEXT_FORMS, *TEXT_FORMS, *LIST_FORMS, *LABEL_FORMS, *FIELD_FORMS, *JOINED_FORMS, "Between", "Length", "Range",
)  # fmt: skip

PATTERNS = (
    ".", "", "err.r", "[0-9]+", "\\A.$", "\\d+", "[^a-z ]", "(?i)error", "e(rr|xx)or", "x|^a$", "^error$",
    "\\berror\\b", "(a|b)?", "^a.*a$", "a{2,3}", "a{2,}", "日.語", "^$", "(a+)+b", "[a-z]+-[0-9]+", "\\w+", "\\W",
    "\\s", "\\S+ \\S+", "a?b*c+", "[]a]", "[^-a]", "\\.", "(?:ab)+", "(?P<n>a)", "a{0}", "(", ")", "[", "a{2,1}", "*",
    "[z-a]", "(?P<", "\\", "a)(b", "a)|(b", "a{", "+a",
)  # fmt: skip
LETTERS = "ab_- .é日٣🙂\u0301"


def length(random):
    return random.choice((0, 0, 1, 2, 5, 2**63 - 1, random.randint(0, 9)))


def bound(random):
    return random.choice((0, 1, -1, 7, 2**63 - 1, 2**63, -(2**63), -(2**63) - 1, random.randint(-99, 99)))


def texts_near(random, form, value):
    """Returns the texts of a form that is asked of a value."""
    start = random.randint(0, len(value))
    piece = value[start : start + random.randint(0, 3)]
    near = random.choice((value, piece, value[:start], random.choice(TEXTS), text_of(random, LETTERS, 3)))
    if form in LIST_FORMS:
        return ([near, *some(random, TEXTS, 2)][random.randint(0, 1) :],)
    if form in ("Regex", "Matches", "MatchesNot"):
        return (random.choice(PATTERNS),)
    if form == "Length":
        return length(random), random.choice((length(random), 2**64 - 1))
    if form == "Range":
        return random.choice((bound(random), LEAST)), random.choice((bound(random), GREATEST))
    if form == "Fold":
        return (random.choice((near, near.upper(), near.lower(), near.swapcase())),)
    if form == "Between":
        return near, random.choice((value, value + "\x00", "", random.choice(TEXTS), "\U0010ffff"))
    return () if form in FIELD_FORMS else (near,)


def filter_of(random, form, field, value):
    if form in JOINED_FORMS:
        return form, [("Phrase", field, random.choice((value, *texts_near(random, form, value)))) for _ in range(2)]
    texts = texts_near(random, form, value)
    return ("Select", [[(field, form, *texts)]]) if form in LABEL_FORMS else (form, field, *texts)


def value_of(random):
    any_text = random.choice(TEXTS + NUMBERS + STAMPS)
    value = random.choice((text_of(random, LETTERS, 8), text_of(random, "ab ", 6), any_text, "error an ERROR"))
    return "" if "&" in value else value


def case(random):
    """Returns a filter, and records."""
    values = [value_of(random) for _ in range(random.randint(1, 5))]
    field = random.choice(("a", "a", "a", "a", "v", "b", "_stream", "_stream_id", "_msg"))
    filter_ = filter_of(random, random.choice(FORMS), field, values[0])
    names = [random.choice(("a", field)) for _ in values]
    records = [f"{name}={value}&v=x" for name, value in zip(names, values)]
    return random.choice((filter_, filter_, filter_, ("Not", filter_))), records
