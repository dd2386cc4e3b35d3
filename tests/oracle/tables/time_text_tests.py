"""Timestamps, bounds and durations as text."""
from chance import STAMPS, lines_of, mutated, table
from faults import Fault
import moments

LETTERS = "0123456789-:.TtZz+ é"
UNITS = ("ns", "µs", "us", "ms", "s", "m", "h", "d", "w", "n", "y", "M", "μs", "")


def answers(stdin):
    return table(map(answer, lines_of(stdin)))


def answer(line):
    try:
        if line.startswith("bound "):
            return "{} {}".format(*moments.read_bound(line.removeprefix("bound ")))
        if line.startswith("duration "):
            return str(moments.read_duration(line.removeprefix("duration ")))
        moment = moments.read_moment(line)
        return f"{moment} {moments.write_moment(moment)} {moments.day_of(moment)}"
    except Fault as fault:
        return fault.name


YEARS = (0, 1, 1969, 1970, 1972, 1999, 2000, 2024, 2100, 2261, 2262, 2263, 9999)


def date(random):
    year = random.choice((*YEARS, random.randint(1970, 2262)))
    return f"{year:04}-{random.randint(0, 13):02}-{random.choice((0, 1, 28, 29, 30, 31, 32)):02}"


def clock(random):
    parts = (random.choice((0, 9, 23, 24)), random.choice((0, 30, 59, 60)), random.choice((0, 30, 59, 60)))
    return "{:02}:{:02}:{:02}".format(*parts)


def digits(random, most):
    return "".join(random.choice("0129") for _ in range(random.randint(1, most)))


def zone(random):
    return random.choice(("", "Z", "z", "+00:00", "-00:00", "+02:00", "-11:30", "+23:59", "-24:00", "+01:60", "+1:00"))


def moment_case(random):
    if random.random() < 0.3:
        near = random.choice((10**11, 10**14, 10**17, 2**63, 2**63 // 10**9, 2**63 // 10**6, 0, 10**19))
        number = max(0, near + random.randint(-2, 2))
        ending = random.choice(("", "", ".", "." + digits(random, 10)))
        return random.choice(("", "", "0", "-", "+")) + str(number) + ending
    fraction = random.choice(("", "", ".", "." + digits(random, 10)))
    return date(random) + random.choice("TTTt _") + clock(random) + fraction + zone(random)


def bound_case(random):
    text = date(random) + "T" + clock(random)
    fraction = "." + digits(random, 10) if random.random() < 0.2 else ""
    cut = random.choice((4, 7, 10, 13, 16, 19, random.randint(0, 19)))
    return text[:cut] + (fraction if cut == 19 else "") + zone(random)


def duration_case(random):
    pieces = ""
    for _ in range(random.randint(0, 3)):
        edge = random.choice(("0" * 30 + "7", str(2**63 - 1), str(2**63), "106751", "15250", ""))
        pieces += random.choice((edge, str(random.randint(0, 99)))) + random.choice(UNITS)
    return pieces


def cases(random):
    lines = ["", "bound ", "duration ", *STAMPS]
    lines += ["9223372036854775807", "9223372036854775808"]
    lines += ["2262-04-11T23:47:16.854775807Z", "2262-04-11T23:47:16.854775808Z"]
    lines += ["duration 9223372036854775807ns", "duration 9223372036s854775807ns", "duration 9223372036s854775808ns"]
    lines += ["1969-12-31T23:59:59.999999999Z", "1970-01-01T00:00:00+00:01", "1969-12-31T23:59:00-00:01", "9" * 5000]
    for prefix, case in (("", moment_case), ("bound ", bound_case), ("duration ", duration_case)):
        for _ in range(150):
            text = case(random)
            lines += [prefix + text, prefix + mutated(random, text, LETTERS)]
    return table(lines)
