"""Regular expressions, as far as the tables use the syntax of Rust's crate `regex`.

A pattern is read into a tree, and a part of the tree takes each place of a text to the places where it may end. So
nothing depends on which of several matches is preferred.
"""
import re
import unicodedata

from words import WHITE_SPACE, is_word


class Refused(Exception):
    """There is no such pattern."""


class Unknown(Exception):
    """The pattern uses more of the syntax than this module reads."""


PUNCTUATION = set("\\.+*?()|[]{}^$#&-~")
CONTROLS = {"n": "\n", "r": "\r", "t": "\t", "f": "\f", "v": "\v", "a": "\a"}
GROUP_NAME = re.compile(r"\?P?<[A-Za-z_][A-Za-z0-9_]*>")


def is_perl_word(c):
    return is_word(c) or unicodedata.category(c) in ("Mn", "Mc", "Me", "Pc") or c in "\u200c\u200d"


CLASSES = {"d": lambda c: unicodedata.category(c) == "Nd", "s": lambda c: c in WHITE_SPACE, "w": is_perl_word}


class Pattern:
    """A pattern that was read. Raises `Refused` or `Unknown` if it can't be."""

    def __init__(self, text):
        self.text, self.at = text, 0
        self.any_case = self.takes("(?i)")
        self.tree = self.alternatives()
        if self.at < len(text):
            raise Refused(text)

    # reading

    def next(self):
        return self.text[self.at : self.at + 1]

    def takes(self, text):
        """Takes a text if it stands next, and returns whether it does."""
        found = self.text.startswith(text, self.at)
        self.at += len(text) if found else 0
        return found

    def take(self):
        if not self.next():
            raise Refused(self.text)
        self.at += 1
        return self.text[self.at - 1]

    def alternatives(self):
        options = [self.sequence()]
        while self.takes("|"):
            options.append(self.sequence())
        return "or", options

    def sequence(self):
        parts = []
        while self.next() and self.next() not in "|)":
            parts.append(self.repeated())
        return "and", parts

    def repeated(self):
        part = self.part()
        while self.next() and self.next() in "*+?{":
            least, most = {"*": (0, None), "+": (1, None), "?": (0, 1)}.get(self.take()) or self.counts()
            self.takes("?")
            part = "many", part, least, most
        return part

    def counts(self):
        match = re.compile("([0-9]+)(,([0-9]*))?}").match(self.text, self.at)
        if not match:
            raise Refused(self.text)
        self.at = match.end()
        least = int(match[1])
        most = least if match[2] is None else int(match[3]) if match[3] else None
        if most is not None and most < least:
            raise Refused(self.text)
        return least, most

    def part(self):
        c = self.take()
        if c in "*+?{":
            raise Refused(self.text)
        if c == "(":
            return self.group()
        if c == "[":
            return "one", self.class_()
        if c in "^$":
            return "edge", c
        if c == ".":
            return "one", lambda x: x != "\n"
        return self.escape() if c == "\\" else ("one", self.same(c))

    def same(self, c):
        """Returns a test of whether a character is this one, in any case of it if the pattern says so."""
        if self.any_case:
            return lambda x: x == c or x.casefold() == c.casefold()
        return lambda x: x == c

    def group(self):
        if self.next() == "?" and not self.takes("?:"):
            name = GROUP_NAME.match(self.text, self.at)
            if not name:
                raise Refused(self.text) if self.text[self.at :].startswith(("?P<", "?<")) else Unknown(self.text)
            self.at = name.end()
        tree = self.alternatives()
        if not self.takes(")"):
            raise Refused(self.text)
        return tree

    def escape(self):
        c = self.take()
        if c in PUNCTUATION:
            return "one", self.same(c)
        if c in CONTROLS:
            return "one", self.same(CONTROLS[c])
        if c in "dsw":
            return "one", CLASSES[c]
        if c in "DSW":
            return "one", lambda x: not CLASSES[c.lower()](x)
        if c in "Azb":
            return "edge", c
        raise Unknown(self.text)

    def class_(self):
        """Returns the test of the characters between brackets."""
        others = self.takes("^")
        tests = [self.class_item()]
        while not self.takes("]"):
            tests.append(self.class_item())
        return lambda x: any(test(x) for test in tests) != others

    def class_item(self):
        low = self.take()
        if low == "\\":
            low = self.take()
            if low in CLASSES:
                return CLASSES[low]
            if low not in PUNCTUATION:
                raise Unknown(self.text)
        elif low in "[&~":
            raise Unknown(self.text)
        if self.next() != "-" or self.text[self.at + 1 : self.at + 2] in ("]", ""):
            return self.same(low)
        self.at += 1
        high = self.take()
        if high in "\\[]&~-" or self.any_case:
            raise Unknown(self.text)
        if high < low:
            raise Refused(self.text)
        return lambda x: low <= x <= high

    # matching

    def ends(self, tree, text, start):
        """Returns the places where the tree may end that begins at a place."""
        kind = tree[0]
        if kind == "one":
            return {start + 1} if start < len(text) and tree[1](text[start]) else set()
        if kind == "edge":
            return {start} if is_edge(tree[1], text, start) else set()
        if kind == "or":
            return self.ends_of(tree[1], text, start)
        if kind == "and":
            places = {start}
            for part in tree[1]:
                places = self.next_ends(part, text, places)
            return places
        return self.ends_of_many(tree, text, start)

    def ends_of(self, options, text, start):
        return set().union(*(self.ends(option, text, start) for option in options))

    def next_ends(self, part, text, places):
        return set().union(*(self.ends(part, text, place) for place in places))

    def ends_of_many(self, tree, text, start):
        _, part, least, most = tree
        places, count = {start}, 0
        while count < least:
            places = self.next_ends(part, text, places)
            count += 1
        found, new = set(places), places
        while new and (most is None or count < most):
            new = self.next_ends(part, text, new) - found
            found |= new
            count += 1
        return found

    def is_found(self, text):
        """Returns whether the pattern matches somewhere in a text."""
        return any(self.ends(self.tree, text, start) for start in range(len(text) + 1))

    def is_whole(self, text):
        """Returns whether the pattern matches a whole text."""
        return len(text) in self.ends(self.tree, text, 0)


def is_edge(mark, text, place):
    """Returns whether a place is the start or the end of a text, or of a word for `b`."""
    if mark == "b":
        before, after = text[place - 1 : place] if place else "", text[place : place + 1]
        return any(map(is_perl_word, before)) != any(map(is_perl_word, after))
    return place == (0 if mark in "^A" else len(text))


def first_refused(patterns):
    """Returns the number of the first pattern that can't be read, or None."""
    for number, pattern in enumerate(patterns):
        try:
            Pattern(pattern)
        except Refused:
            return number
    return None


def states_of(tree):
    """Returns how many characters a tree has where each of its parts stands as often as it is repeated at most."""
    kind = tree[0]
    if kind in ("or", "and"):
        return sum(map(states_of, tree[1]))
    if kind == "many":
        _, part, least, most = tree
        return states_of(part) * (least + 1 if most is None else most)
    return 1


def sum_of_states(patterns):
    return sum(states_of(Pattern(pattern).tree) for pattern in patterns)
