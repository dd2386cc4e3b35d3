"""The tokens of queries."""
from faults import Fault
from words import WHITE_SPACE, is_word, size

LONGEST = 16384
MARKS = set("|()[]{},:=!~*<>-+")
ESCAPES = {"\\": "\\", '"': '"', "'": "'", "n": "\n", "r": "\r", "t": "\t"}


class Token:
    """A token: its kind, how it is spelled, the text that it stands for, its place in bytes.

    It is glued if no white space stands before it. The first token is not glued.
    """

    def __init__(self, kind, spelled, text, start, glued):
        self.kind, self.spelled, self.text, self.start, self.glued = kind, spelled, text, start, glued
        self.keyword = spelled.lower() if kind == "Bare" and spelled.isascii() else None

    def is_mark(self, marks):
        return self.kind == "Mark" and self.spelled in marks


def tokens_of(query):
    """Returns the tokens of a query. Raises `TooLong`, or the first of `OpenQuote`, `BadEscape` and `BadChar`."""
    if size(query) > LONGEST:
        raise Fault("TooLong")
    tokens, at, start, glued = [], 0, 0, False
    while at < len(query):
        if query[at] in WHITE_SPACE:
            end, glued = at + 1, False
        else:
            kind, end, text = token_at(query, at, start)
            tokens.append(Token(kind, query[at:end], text, start, glued))
            glued = True
        start += size(query[at:end])
        at = end
    return tokens


def token_at(query, at, start):
    """Returns the kind, the end and the text of the token at a place, which is `start` in bytes."""
    c = query[at]
    if is_word(c) or c in "./":
        end = at
        while end < len(query) and (is_word(query[end]) or query[end] in "./-"):
            end += 1
        return "Bare", end, query[at:end]
    if c in "\"'`":
        return quoted_at(query, at, start)
    if c not in MARKS:
        raise Fault("BadChar", start)
    return "Mark", at + 1, c


def quoted_at(query, at, start):
    """Returns the kind, the end and the text of a quoted token. A quote that is not closed is named first."""
    quote, end, text, bad = query[at], at + 1, "", None
    while end < len(query) and query[end] != quote:
        if query[end] == "\\" and quote != "`":
            escaped = query[end + 1 : end + 2]
            bad = end if bad is None and escaped not in ESCAPES else bad
            text += ESCAPES.get(escaped, "")
            end += 2
        else:
            text += query[end]
            end += 1
    if end >= len(query):
        raise Fault("OpenQuote", start)
    if bad is not None:
        raise Fault("BadEscape", start + size(query[at:bad]))
    return "Quoted", end + 1, text
