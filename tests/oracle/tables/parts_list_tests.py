"""The live list of two slots (docs/BYTES.md, "Slot of a list of parts"), or where a slot is damaged."""
from typing import NamedTuple

from byte_items import Damaged, Items, bytes_of, check_spelling, cut_once, damaged_copies, unsigned
from chance import lines_of, some, table

LIMIT = 2**63
MAGIC = b"VLLIST"


class Version(Exception):
    """A slot has a list of another version."""

    def __init__(self, found):
        super().__init__(found)
        self.found = found


class Listing(NamedTuple):
    generation: int
    front: int
    next_file: int
    # of each part its day, its file and its bytes
    entries: list


def slot_of(listing):
    """Returns the bytes of a slot that has a list, which may break the rules of lists."""
    head = b"\1" + MAGIC + unsigned(1, 2)
    numbers = b"".join(unsigned(n, 8) for n in listing[:3])
    entries = [unsigned(day, 4) + unsigned(file, 8) + unsigned(size, 8) for day, file, size in listing.entries]
    return head + numbers + unsigned(len(entries), 4) + b"".join(entries)


def within(items, least, limit):
    """Returns a number of eight bytes, whose form is that it is in a range."""
    number = items.below(8, limit)
    if number < least:
        items.damaged()
    return number


def read_slot(data, slot):
    """Returns the list of a slot, or None if it is closed."""
    if len(data) < 2 or data[0] != 1:
        return None
    items = Items(data)
    items.item(1)
    if items.item(len(MAGIC)) != MAGIC:
        items.damaged()
    version = items.unsigned(2)
    if version != 1:
        raise Version(version)
    generation, front, next_file = within(items, 1, LIMIT), within(items, 0, LIMIT), within(items, 2, LIMIT)
    count, entries = items.unsigned(4), []
    for _ in range(count):
        entries.append((items.unsigned(4), within(items, 2, next_file), items.unsigned(8)))
    items.end()
    keys = [(day, file) for day, file, _ in entries]
    if generation % 2 != slot or keys != sorted(set(keys)) or len({file for _, file in keys}) < len(keys):
        raise Damaged(0)
    listing = Listing(generation, front, next_file, entries)
    check_spelling(items, slot_of(listing))
    return listing


def answer(line):
    # each check of the program holds
    if line.startswith("check "):
        return "true"
    found = []
    for slot, digits in enumerate(cut_once(line, " ")):
        try:
            found.append(read_slot(bytes_of(digits or ""), slot))
        except Damaged as fault:
            return f"Damaged {{ slot: {slot}, at: {fault.at} }}"
        except Version as fault:
            return f"Version {{ slot: {slot}, found: {fault.found} }}"
    live = max((listing for listing in found if listing), key=lambda listing: listing.generation, default=None)
    if live is None:
        return "no list"
    numbers = " ".join(str(n) for n in live[:3])
    return f"list {numbers}" + "".join(f" {day}:{file}:{size}" for day, file, size in live.entries)


def answers(stdin):
    return table(map(answer, lines_of(stdin)))


def listing_of(random, generation):
    """Returns a list that keeps the rules, or breaks one of them at times."""
    files = random.sample(range(2, 12), random.randrange(5))
    entries = sorted((random.randrange(4), file, random.randrange(2**64)) for file in files)
    next_file = max(files, default=1) + random.randrange(1, 3)
    if random.randrange(3) == 0 and entries:
        entries = random.choice([entries[::-1], entries + entries[-1:], entries + [(9, entries[0][1], 7)]])
    if random.randrange(6) == 0:
        next_file = random.choice([0, 1, 2, next_file - 1, LIMIT - 1, LIMIT])
    front = random.choice([0, 1, random.randrange(2**64), LIMIT - 1, LIMIT])
    return Listing(generation, front, next_file, entries)


def cases(random):
    lines = ["", "01 01", "00 00", "0101 ", " 0101"]
    for _ in range(60):
        generation = random.choice([0, 1, 2, 3, random.randrange(2**63), LIMIT - 1, LIMIT])
        slots = [b"", b""]
        for number in (generation, generation + random.choice([-1, 1, 2])):
            slot = number % 2 if random.randrange(8) else random.randrange(2)
            slots[slot] = slot_of(listing_of(random, max(number, 0) % 2**64))
        lines.append(f"{slots[0].hex()} {slots[1].hex()}")
        for copy in some(random, damaged_copies(slots[0], random, 20), 3):
            lines.append(f"{copy.hex()} {slots[1].hex()}")
        for copy in some(random, damaged_copies(slots[1], random, 20), 3):
            lines.append(f"{slots[0].hex()} {copy.hex()}")
    return table(lines)
