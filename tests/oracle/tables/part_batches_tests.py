"""Whether parts hold whole batches: the batches from 1 to a front, each with places from 0 without a gap."""
from byte_items import cut_once, number_or
from chance import lines_of, table


def answers(stdin):
    return table(map(answer, lines_of(stdin)))


def answer(line):
    call, rest = cut_once(line, " ")
    if call == "made" and rest is not None:
        front, rows, parts = map(int, rest.split(" "))
        return made(front, rows, parts)
    front, *parts = line.split("|")
    parts = [[number_of(text) for text in part.split(",")] for part in parts if part]
    if any(len(set(part)) < len(part) for part in parts):
        return "no part"
    return shown(hold(number_or(front, 0, 2**64), [number for part in parts for number in part]))


def number_of(text):
    batch, place = cut_once(text, " ")
    return number_or(batch, 0, 2**64), number_or(place or "", 0, 2**32)


def shown(truth):
    return "true" if truth else "false"


def hold(front, numbers):
    """Returns whether these are the numbers of the rows of so many batches."""
    batches = {}
    for batch, place in numbers:
        batches.setdefault(batch, []).append(place)
    if len(batches) != front or min(batches, default=1) < 1 or max(batches, default=front) > front:
        return False
    return all(sorted(places) == list(range(len(places))) for places in batches.values())


def made(front, rows, parts):
    """Answers for rows of all batches that are spread over parts. With no part there is no batch."""
    return shown(hold(front, [(batch + 1, place) for batch in range(front) for place in range(rows)] if parts else []))


def line_of(front, parts):
    texts = [",".join(f"{batch} {place}" for batch, place in part) for part in parts if part]
    return "|".join([str(front), *texts])


def spread(random, numbers, most):
    """Returns the numbers in another order, over at most so many parts."""
    parts = [[] for _ in range(random.randint(1, most))]
    for number in random.sample(numbers, len(numbers)):
        random.choice(parts).append(number)
    return parts


def cases(random):
    lines = ["0", "1", "18446744073709551615", "72057594037927936|1 0", "1|1 0", "0|1 0", "1|0 0", "1|2 0", "1|1 1"]
    lines += ["1|1 0,1 0", "1|1 0|1 0", "2|1 0|1 0", "2|1 0|2 0", "2|2 0|1 0", "2|1 0|3 0", "2|1 0,2 1", "1|1 0,1 2"]
    lines += ["2|1 0|18446744073709551615 0", "18446744073709551615|18446744073709551615 0", "2|1 0,1 1,2 0,2 1"]
    lines += ["1|1 0,1 4294967295", "2|1 0,0 0", "1|0 0,1 0", "1|0 1,1 0", "1|0 4294967295,1 0", "2|1 0,2 4294967295"]
    lines += ["made 40 50 7", "made 300 1 3", "made 1 2000 1", "made 0 5 2", "made 5 0 2", "made 3 4 0", "made 3 2 9"]
    for _ in range(120):
        front = random.randint(1, 5)
        numbers = [(batch + 1, place) for batch in range(front) for place in range(random.randint(1, 5))]
        at = random.randrange(len(numbers))
        batch, place = numbers[at]
        change = random.randrange(9)
        if change == 0:
            del numbers[at]
        elif change == 1:
            others = ((batch, place + 1), (batch, place), (batch + 1, place), (front + 1, 0), (0, place))
            numbers.append(random.choice(others))
        elif change == 2:
            others = ((batch, place + 1), (batch - 1, place), (2**64 - 1, place), (batch, 2**32 - 1))
            numbers[at] = random.choice(others)
        elif change == 3:
            front += random.choice((-1, 1))
        lines.append(line_of(front, spread(random, numbers, 4)))
    return table(lines)
