"""Words, phrases and prefixes in texts."""
from chance import TEXTS, lines_of, table, text_of
from words import has_phrase, is_word, size, words


def answers(stdin):
    return table(map(answer, lines_of(stdin)))


def answer(line):
    text, tab, needle = line.partition("\t")
    return has_answer(text, needle) if tab and needle else text_answer(line)


def has_answer(text, needle):
    """The answers of the search, each of which the plain program gives too."""
    word = needle in [word_at(text, place) for place in words(text)]
    found = [word, has_phrase(needle, text), has_phrase(needle, text, any_end=True)]
    return " ".join(str(answer).lower() for answer in found for _ in range(2))


def word_at(text, place):
    return text.encode("utf-8")[place[0] : place[1]].decode("utf-8")


def text_answer(text):
    found = words(text)
    marks = "".join("w" if is_word(c) else "-" for c in text)
    places = "".join(f" {start}-{end}" for start, end in found)
    return f"{str(found == [(0, size(text))]).lower()} {marks}{places} by trial{places}"


def cases(random):
    lines = ["", "\t", "a\t", "\ta"]
    for _ in range(300):
        text = text_of(random, most=12)
        start = random.randint(0, len(text))
        piece = text[start : start + random.randint(1, 4)]
        needle = random.choice((text_of(random, most=3), piece, random.choice(TEXTS)))
        lines.append(random.choice((text, text + "\t" + needle, text + "\t" + needle)))
    return table(lines + list(TEXTS) + ["a" * 100, "é " * 100 + "\té"])
