"""Whether filters hold for rows and for records, and what `sort`, `uniq`, `top` and `stats` make of records."""
from chance import lines_of, table
from faults import Fault
from filters import holds, of_record, of_row, patterns_of
import form_cases
import notation
import notation_cases
from notation import record, record_text
from patterns import first_refused, sum_of_states
from pipes import outcome, patterns_of_pipe
from queries import parse
from query_cases import Queries
from query_texts import filter_query, pipe_query
from rows import Row

NOW = 1714557600 * 10**9
MINUTE = 60 * 10**9
COMPARED = ("Sort", "Uniq", "Top", "Stats")
NAMES = ("a", "b", "_msg", "_msg", "error", "é")
# the number of the first pattern of a filter that is asked of records
FIRST = 3
# All tables of the patterns of a query together may have 32 MiB. A state takes some 32 bytes; a query of the table is
# far from this bound on either side of it.
MOST_STATES = 2**20


def answers(stdin):
    return table(map(answer, lines_of(stdin)))


def parsed(text):
    """Returns the filter and the pipes of a query, or None if it is none."""
    try:
        return parse(text)
    except Fault:
        return None


def answer(case):
    text, *records = case.split("\t")
    records = [record(fields) for fields in records if fields]
    query = parsed(text)
    if query is None:
        return "no query"
    filter_, pipes = query
    if not pipes or pipes[0][0] not in COMPARED:
        return answer_of_filter(filter_, pipes, records)
    made = outcome(pipes[:1], records)
    return made if isinstance(made, str) else "\t".join(map(record_text, made))


def answer_of_filter(filter_, pipes, records):
    own = patterns_of(filter_)
    fault = refused_in(own + [pattern for pipe in pipes for pattern in patterns_of_pipe(*pipe)], 0)
    if fault != "None":
        unreadable = "None" if first_refused(own) is None else "Some(Unreadable)"
        return f"{fault} {refused_in(own, FIRST)} {unreadable}"
    letters = [str(FIRST + len(own))]
    for place, fields in enumerate(records):
        of_row_ = row_letter(filter_, NOW - place * MINUTE, fields)
        letters.append(of_row_ + letter(holds(filter_, of_record(fields), NOW)))
    return " ".join(letters)


def refused_in(patterns, first):
    """Returns the fault of patterns of which the first has a number, or `None`."""
    refused = first_refused(patterns)
    if refused is not None:
        return f"Some(RegexRefused {{ nth: {first + refused} }})"
    return "Some(Memory)" if sum_of_states(patterns) > MOST_STATES else "None"


def row_letter(filter_, time, fields):
    text = fields.get("_time", "")
    is_number = text.removeprefix("-").isascii() and text.removeprefix("-").isdigit()
    try:
        row = Row(int(text) if is_number and -(2**63) <= int(text) < 2**63 else time, ["a"], fields)
    except Fault:
        return "-"
    return letter(holds(filter_, of_row(row), NOW))


def letter(is_held):
    return "1" if is_held else "0"


def records_of(random, most):
    """Returns records with names and values of which queries speak."""
    kinds = random.choice(notation_cases.MIXTURES)
    records = []
    for _ in range(random.randint(1, most)):
        fields = (f"{random.choice(NAMES)}={notation_cases.value(random, kinds)}" for _ in range(random.randint(1, 4)))
        records.append("&".join(fields))
    return records


def query_of(random, makes):
    """Returns the first query of those made that is one and has a fitting first pipe, or none."""
    while True:
        made = Queries(random)
        text = made.joined(makes(made))
        query = parsed(text)
        if query and (not query[1] or query[1][0][0] in COMPARED):
            return text


def case_of_form(random):
    """Returns a filter of one form, and records with values that are near its texts."""
    while True:
        filter_, records = form_cases.case(random)
        text = filter_query(filter_)
        if parsed(text) == (filter_, []):
            return "\t".join([text, *records])


def case_of_pipe(random):
    """Returns a pipe that was made in the small notation as a query, and records."""
    while True:
        pipe = notation.pipe(random.choice(notation_cases.COMPARED)(random))
        text = "* | " + pipe_query(*pipe)
        if parsed(text) == (("All",), [pipe]):
            return "\t".join([text, *notation_cases.records(random, 12)])


def cases_of_limits(random):
    """Returns small limits of many records, with ties across them."""
    for _ in range(8):
        many = [f"a={random.randint(0, 20)}&m={n}" for n in range(700)]
        keys = random.choice(("a", "a desc", "a desc, m"))
        yield "\t".join([f"* | sort by ({keys}) limit {random.randint(1, 40)}", *many])
        yield "\t".join([f"* | top {random.randint(1, 9)} by (a)", *many])


def cases(random):
    lines = ["", "a\t", "*\ta=1", "a | fields b\ta=1", "(\ta=1", "a | math b + 1 as c\ta=1", "a | len(b) c\t_msg=a"]
    for _ in range(900):
        text = query_of(random, lambda made: made.filter(3))
        lines.append("\t".join([text, *records_of(random, 8)]))
    for _ in range(500):
        text = query_of(random, lambda made: ["*", "|", *made.pipe()])
        lines.append("\t".join([text, *records_of(random, 14)]))
    for limit in (2**63 - 1, -(2**63)):
        step = 1 if limit > 0 else -1
        for other in (-1, 0, 1):
            lines.append(f"* | stats sum(a) as s, sum(b) t\ta={limit}&b={other}\ta={other}&b={limit}\tb={other}")
            lines.append(f"* | stats by (b) sum(a) as s\tb=2&a={limit}\tb=2&a={other}\tb=1&a={other}\tb=1&a={limit}")
            lines.append(f"* | stats sum(a) as s\ta={limit}\ta={step}\ta={-step}\ta={other}")
    lines += [case_of_form(random) for _ in range(700)] + [case_of_pipe(random) for _ in range(700)]
    lines += cases_of_limits(random)
    return table(line for line in lines if "\n" not in line)
