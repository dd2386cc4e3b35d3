"""Which blocks a query needs (docs/LOGSQL.md, "Which blocks are read"), and the blocks of batches."""
from blocks import Numbered, names_of, values_of
from columns import column_filter
from filters import Subject, holds
from parts import blocks_of
from rows import COMPUTED
from words import words


class Head:
    """What a block says of its rows without them: the labels of their stream, the least and the greatest of their
    times, and of each column the filter of its words."""

    def __init__(self, rows):
        times = [numbered.row.time for numbered in rows]
        self.labels, self.least, self.greatest = rows[0].row.labels, min(times), max(times)
        self.filters = {name: column_filter(values_of(rows, name)) for name in names_of(rows)}

    def may_have(self, name, words_):
        """Returns whether a column may have these words. Where it has to have none, it need not be there."""
        return all(name in self.filters and self.filters[name].may_have(word) for word in words_)

    def meets(self, low, high):
        """Returns whether the times from the least to the greatest begin before these end, and end after they begin."""
        return self.least <= high and low <= self.greatest


def words_of(text):
    """Returns the words of a text, in bytes."""
    data = text.encode("utf-8")
    return [data[start:end] for start, end in words(text)]


def ended_words_of(text):
    """Returns the words of a text that end before it does, so that none of them goes on after it."""
    data = text.encode("utf-8")
    return [data[start:end] for start, end in words(text) if end < len(data)]


def words_of_all(texts):
    return [word for text in texts for word in words_of(text)]


# of each kind of filter that needs words: the lists of words of which a column has to have all of one list
NEEDED = {
    "Phrase": lambda text: [words_of(text)],
    "Prefix": lambda text: [ended_words_of(text)],
    "Exact": lambda text: [words_of(text)],
    "ExactPrefix": lambda text: [ended_words_of(text)],
    "Seq": lambda texts: [words_of_all(texts)],
    "OneOf": lambda texts: [words_of(text) for text in texts],
}


def admits(filter_, head, now):
    """Returns whether a filter admits the block of this head, when the clock reads `now`."""
    kind, *parts = filter_
    if kind in ("All2", "Any2"):
        return (all if kind == "All2" else any)(admits(part, head, now) for part in parts[0])
    if kind == "Last":
        return head.meets(now - parts[0] + 1, now)
    if kind == "Times":
        return head.meets(*parts)
    if kind == "Select":
        return holds(filter_, Subject(None, labels=head.labels))
    if kind in NEEDED and parts[0] not in COMPUTED:
        name, texts = parts
        return any(head.may_have(name, words_) for words_ in NEEDED[kind](texts))
    return True


def heads_of(batches):
    """Returns the heads of the blocks of batches of rows. Each batch is a part of its own."""
    heads = []
    for number, batch in enumerate(batches, 1):
        rows = [Numbered(row, number, place) for place, row in enumerate(batch)]
        heads += map(Head, blocks_of(rows))
    return heads


def admitted(filter_, heads, now):
    """Returns how many blocks a filter admits."""
    return sum(admits(filter_, head, now) for head in heads)
