"""Helpers that make cases from a `random.Random`."""

# texts with edges: empty, one of each kind of character, letters beside marks, escapes, and characters of 2 to 4 bytes
TEXTS = (
    "", "a", "b", "_", "-", ".", " ", "é", "É", "ß", "日", "日本語", "🙂", "٣", "٤٢", "a b", "a_b", "a-b", "a.b", "ab",
    "aé", "éa", "x9", "9x", "\u0301", "e\u0301", "error", "Error", "errors", "xerror", "an error", '"', "\\", "/",
    "a\\b", '"q"', "\u00a0", "\u2003", "a\u00a0b", "{", "}", "=", ",", "&", "a,b", "a=b", "\x01", "\x1f", "\x7f",
    "\u017f", "\u212a", "\ufb01", "Straße",
)  # fmt: skip
NUMBERS = (
    "0", "1", "-1", "7", "10", "41", "-0", "+1", "007", "1.5", "1e3", "-", "", " 1", "1 ", "٣", "-07",
    "9223372036854775807", "9223372036854775808", "-9223372036854775808", "-9223372036854775809",
    "18446744073709551615", "99999999999999999999",
)  # fmt: skip
STAMPS = (
    "2024-05-01T10:00:00Z", "2024-05-01T10:00:00.5Z", "2024-05-01T10:00:00.50Z", "2024-05-01T10:00:00.123456789Z",
    "2024-05-01T10:00:00", "2024-05-01 10:00:00Z", "2024-05-01T10:00:00z", "2024-05-01T10:00:00.Z",
    "0000-00-00T00:00:00Z", "2024-05-01T12:00:00+02:00", "2024-05-01", "9999-99-99T99:99:99Z",
    "2024-05-01T10:00:00.1234567890Z",
)  # fmt: skip
LETTERS = "ab_- .é日٣🙂\u0301x9"


def text_of(random, letters=LETTERS, most=8):
    """Returns a text of at most this many of these characters."""
    return "".join(random.choice(letters) for _ in range(random.randint(0, most)))


def some(random, items, most):
    """Returns a list of at most this many of these items, at least one."""
    return [random.choice(items) for _ in range(random.randint(1, most))]


def mutated(random, text, letters):
    """Returns a text with one character removed, put in, or changed."""
    at = random.randint(0, len(text))
    kept = random.choice((at, min(at + 1, len(text))))
    return text[:at] + random.choice((*letters, "")) + text[kept:]


def table(lines):
    """Returns lines as the bytes of a table."""
    return "".join(line + "\n" for line in lines).encode("utf-8")


def lines_of(stdin):
    """Returns the lines of a table of texts."""
    return stdin.decode("utf-8").removesuffix("\n").split("\n") if stdin else []
