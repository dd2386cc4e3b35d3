"""Queries: what a text says, or why it is none.

A pipe is its kind and its parts, as `("Fields", names)`, `("Rename", pairs)`, `("Limit", n)`, `("Keep", filter)`,
`("Sort", keys, limit, offset)` with keys of a name and whether it goes down, `("Uniq", names, hits, limit)`,
`("Top", n, names)`, and `("Stats", keys, functions)` with keys of a name and a step or None. A function is its call,
its names, its filter or None, and the name of its value. A pipe that sets fields is `("Extract", pattern, field)`,
`("Format", pattern, name)`, `("Len", field, name)`, or `("Math", items)` with items of an expression and a name. The
module `filters` says what a filter is, and `making` what patterns and expressions are.
"""
from derivations import derive, listed
from faults import Fault, result_of
from filters import GREATEST, LEAST
from making import extracting_pattern_of, pattern_of
import moments
from tokens import Token, tokens_of
from values import number
from words import size

DEPTH = 64
RANKS = ("Syntax", "TooDeep", "BadNumber", "BadTime", "BadDuration", "BadPattern")
NO_FAULT = (float("inf"), 0)
INFINITE = {"inf": GREATEST, "-inf": LEAST}


def count_of(text):
    """Returns the number of at least 0 that a text is, or None."""
    found = number(text)
    return found if found is not None and found >= 0 else None


def end_of(text):
    """Returns the end of a range, or None if the text is none."""
    infinite = text.lower() if text.isascii() else text
    return infinite if infinite in INFINITE else number(text)


def step_of(text):
    """Returns the step of a key, or None if the text is not a duration above zero."""
    step = result_of(moments.read_duration, text)
    return None if isinstance(step, Fault) or step == 0 else step


# of each kind of item how it is read, and the fault if it can't be
ITEMS = {
    "number": (number, "BadNumber"),
    "end": (end_of, "BadNumber"),
    "size": (count_of, "BadNumber"),
    "high": (lambda text: 2**64 - 1 if text == "inf" else count_of(text), "BadNumber"),
    "step": (step_of, "BadDuration"),
    "pattern": (pattern_of, "BadPattern"),
    "extracting pattern": (extracting_pattern_of, "BadPattern"),
}


class Reader:
    """Goes through a derivation: keeps the values that it says, and the faults of these values."""

    def __init__(self, read):
        self.filter, self.pipes, self.faults = None, [], []
        self.values, self.fields, self.items, self.depth, self.last = [], [], [], 0, None
        for event in listed(read):
            if isinstance(event, Token):
                self.last = event
                for item in self.items:
                    item.append(event)
            else:
                getattr(self, "on_" + event.name)(event.value)

    def first_fault(self, refused=None):
        """Returns the place and the rank of the first fault. Where a token is refused, that is one too."""
        syntax = [] if refused is None else [(refused, RANKS.index("Syntax"))]
        return min(self.faults + syntax, default=NO_FAULT)

    def fault(self, name, place):
        self.faults.append((place, RANKS.index(name)))

    def pop(self, count):
        """Takes the last values."""
        popped = self.values[len(self.values) - count :]
        del self.values[len(self.values) - count :]
        return popped

    def item(self):
        """Takes the last item: its place, and the texts of its tokens joined."""
        tokens = self.items.pop()
        return tokens[0].start, "".join(token.text for token in tokens)

    # values

    def on_begin(self, _):
        self.items.append([])

    def on_text_of_item(self, _):
        self.values.append(self.item()[1])

    def on_text(self, _):
        self.values.append(self.last.text)

    def on_name(self, _):
        """An empty name is that of the message."""
        self.values.append(self.last.text or "_msg")

    def on_bracket(self, _):
        self.values.append(self.last.spelled)

    def on_constant(self, value):
        self.values.append(value)

    def on_mark(self, _):
        self.values.append(MARK_OF_LIST)

    def on_list(self, _):
        items = []
        while (value := self.values.pop()) is not MARK_OF_LIST:
            items.insert(0, value)
        self.values.append(items)

    def on_item(self, kind):
        """Reads the text of an item as a value."""
        self.pop(1)
        read, fault = ITEMS[kind]
        place, text = self.item()
        value = read(text)
        if value is None:
            self.fault(fault, place)
        self.values.append(value)

    def on_pair(self, _):
        self.values.append(tuple(self.pop(2)))

    def on_enter(self, _):
        """A parenthesis or a negation opens."""
        self.depth += 1
        if self.depth == DEPTH + 1:
            self.fault("TooDeep", self.last.start)

    def on_leave(self, _):
        self.depth -= 1

    # filters

    def on_field_in(self, _):
        self.fields += self.pop(1)

    def on_field_out(self, _):
        self.fields.pop()

    def field(self):
        return self.fields[-1] if self.fields else "_msg"

    def on_joined(self, kind):
        self.on_list(None)
        filters = self.values.pop()
        self.values.append((kind, filters) if len(filters) > 1 else filters[0])

    def on_not_(self, _):
        self.values.append(("Not", *self.pop(1)))

    def on_star(self, _):
        self.values.append(("Any", self.field()) if self.fields else ("All",))

    def on_phrase(self, _):
        (text,) = self.pop(1)
        self.values.append(("Phrase", self.field(), text) if text else ("Empty", self.field()))

    def on_leaf(self, form):
        kind, count = form
        self.values.append((kind, self.field(), *self.pop(count)))

    def on_compare(self, how):
        (n,) = self.pop(1)
        n = 0 if n is None else n
        low, high = {">": (n + 1, GREATEST), ">=": (n, GREATEST), "<": (LEAST, n - 1), "<=": (LEAST, n)}[how]
        self.values.append(("Range", self.field(), low, high))

    def on_range_(self, _):
        left, low, high, right = self.pop(4)
        low = INFINITE[low] if low in INFINITE else (low or 0) + (left == "(")
        high = INFINITE[high] if high in INFINITE else (high or 0) - (right == ")")
        self.values.append(("Range", self.field(), low, high))

    # times and streams

    def on_span(self, _):
        """Without brackets a duration says the last time up to now, and a bound all that it names."""
        place, text = self.item()
        if not moments.has_form_of_duration(text):
            self.values.append(("Times", *self.bound_of(place, text)))
            return
        span = result_of(moments.read_duration, text)
        if isinstance(span, Fault):
            self.fault("BadDuration", place)
        self.values.append(("Last", span))

    def on_bound(self, _):
        place, text = self.item()
        if moments.has_form_of_duration(text):
            self.fault("BadDuration", place)
            self.values.append((0, 0))
        else:
            self.values.append(self.bound_of(place, text))

    def bound_of(self, place, text):
        bound = result_of(moments.read_bound, text)
        if isinstance(bound, Fault):
            self.fault("BadTime", place)
            return 0, 0
        return bound

    def on_times(self, _):
        left, low, high, right = self.pop(4)
        self.values.append(("Times", low[0] if left == "[" else low[1] + 1, high[1] if right == "]" else high[0] - 1))

    def on_label(self, how):
        name, text = self.pop(2)
        self.values.append((name, how, text))

    def on_select(self, _):
        self.values.append(("Select", *self.pop(1)))

    # pipes

    def on_whole(self, _):
        (self.filter,) = self.pop(1)

    def on_pipe(self, form):
        kind, count = form
        self.pipes.append((kind, *self.pop(count)))

    def on_swapped(self, _):
        self.values += self.pop(2)[::-1]

    def on_sort(self, _):
        """`desc` after the list turns every key around."""
        keys, turned, limit, offset = self.pop(4)
        self.pipes.append(("Sort", [(name, down != turned) for name, down in keys], limit, offset or 0))

    def on_operand(self, _):
        """A text without quotes that is a number stands for it, and any other for the field of this name."""
        whole = number(self.last.text) if self.last.kind == "Bare" else None
        self.values.append(("Named", self.last.text or "_msg") if whole is None else ("Whole", whole))

    def on_operation(self, operator):
        self.values.append(("Two", operator, *self.pop(2)))

    def on_call(self, call):
        self.values.append((call, *self.pop(1)))

    def on_function(self, _):
        (call, names), only, name = self.pop(3)
        self.values.append((call, names, only, name or f"{call}({','.join(names)})"))


MARK_OF_LIST = object()


def parse(text):
    """Returns the filter and the pipes of a query. Raises its first fault.

    Of several derivations that with the latest first fault counts: up to there the tokens may still be a query.
    """
    refused, reads = derive(tokens_of(text), size(text), latest)
    readers = [Reader(read) for read in reads]
    reader = max(readers, key=lambda reader: reader.first_fault(refused))
    place, rank = reader.first_fault(refused)
    if place != NO_FAULT[0]:
        raise Fault(RANKS[rank], place)
    return reader.filter, reader.pipes


def latest(reads):
    """Returns what the derivation has read whose first fault is the latest."""
    return reads[0] if len(reads) == 1 else max(reads, key=lambda read: Reader(read).first_fault())
