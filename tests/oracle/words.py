"""Words, white space and phrases in texts."""
import unicodedata

# the characters with the Unicode property White_Space
WHITE_SPACE = set("\t\n\x0b\x0c\r \x85\xa0\u1680\u2028\u2029\u202f\u205f\u3000")
WHITE_SPACE |= {chr(c) for c in range(0x2000, 0x200B)}


def is_word(c):
    """Returns whether a character is part of words: a letter, a decimal digit or the underscore."""
    category = unicodedata.category(c)
    return c == "_" or category[0] == "L" or category == "Nd"


def size(text):
    """Returns the length of a text in bytes."""
    return len(text.encode("utf-8"))


def words(text):
    """Returns the words of a text, each as its first place and the place after it, in bytes."""
    found, start, at = [], None, 0
    for c in text:
        if is_word(c):
            start = at if start is None else start
        elif start is not None:
            found.append((start, at))
            start = None
        at += size(c)
    return found if start is None else found + [(start, at)]


def phrase_places(phrase, text, any_end=False):
    """Returns the places, in characters, where a phrase stands in a text.

    If the phrase begins with a word character, none stands right before it, and if it ends with one, none stands right
    after it. With `any_end` it may stand in the middle of a word that goes on.
    """
    places = []
    for at in range(len(text) - len(phrase) + 1):
        if not text.startswith(phrase, at):
            continue
        end = at + len(phrase)
        goes_back = at > 0 and bool(phrase) and is_word(phrase[0]) and is_word(text[at - 1])
        goes_on = end < len(text) and bool(phrase) and is_word(phrase[-1]) and is_word(text[end])
        if not goes_back and (any_end or not goes_on):
            places.append(at)
    return places


def has_phrase(phrase, text, any_end=False):
    return bool(phrase_places(phrase, text, any_end))


def has_in_order(phrases, text):
    """Returns whether phrases stand in a text, each after the end of the one before it. Empty ones are ignored."""
    at = 0
    for phrase in filter(None, phrases):
        places = [place for place in phrase_places(phrase, text) if place >= at]
        if not places:
            return False
        at = places[0] + len(phrase)
    return True
