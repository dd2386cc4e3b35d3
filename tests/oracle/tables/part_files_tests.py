"""Parts in files (docs/BYTES.md, "Part" and "Slot of a list of parts"): whether a file is the part of an entry, and
where it is damaged."""
from byte_items import Damaged, bytes_of, cut_once, number_or
from chance import lines_of, table
from parts import Version, put_part, read_part, weight
from tables.column_block_tests import row_of

DAY = 86400 * 10**9


def answers(stdin):
    return table(map(answer, lines_of(stdin)))


def answer(line):
    # each check of the program holds
    if line.startswith("check "):
        return "true"
    day, rest = cut_once(line, " ")
    stated, digits = cut_once(rest or "", " ")
    return read(number_or(day, 0, 2**32), number_or(stated, 0, 2**64), bytes_of(digits or ""))


def read(day, stated, data):
    """Returns what is written of the file of an entry."""
    if len(data) != stated:
        return damaged(min(len(data), stated))
    try:
        rows = read_part(data)
    except Damaged as fault:
        return damaged(fault.at)
    except Version as fault:
        return f"Version {{ found: {fault} }}"
    if any(numbered.row.time // DAY != day for numbered in rows):
        return damaged(0)
    return f"part {len(rows)} {weight(rows)}"


def damaged(at):
    return f"Damaged {{ at: {at} }}"


def row(random, days):
    """Returns a row of one of these days as the text of a table."""
    time = random.choice(days) * DAY + random.choice((0, 1, 10**9, DAY - 1))
    number = f"{random.choice((1, 1, 2))} {random.randint(0, 9)}"
    return f"{time} {number}|{random.choice(('', 'app'))}|app={random.choice('ab')}"


def cases(random):
    first = put_part([row_of("5 1 0||_msg=a")])
    size = len(first)
    lines = [f"check fault {call}" for call in range(5)]
    lines += ["check is_written_over", "check is_removed", "check is_durable"]
    lines += [f"{day} {size} {first.hex()}" for day in (0, 1, 2**32 - 1)]
    lines += [f"0 {stated} {first.hex()}" for stated in (0, 1, size - 1, size + 1, 2**64 - 1)]
    # cut at each length, as stated and as it was
    lines += [f"0 {stated} {first[:length].hex()}" for length in range(size) for stated in (length, size)]
    # each byte changed
    for at in range(size):
        other = (first[at] + random.randrange(1, 256)) % 256
        lines.append(f"0 {size} {(first[:at] + bytes([other]) + first[at + 1 :]).hex()}")
    # both ends of days, and parts of two days
    ends = [(0, 0), (DAY - 1, 0), (DAY, 1), (2 * DAY - 1, 1), (2**63 - 1, (2**63 - 1) // DAY)]
    for time, day in ends:
        data = put_part([row_of(f"{time} 1 0||_msg=a")])
        lines += [f"{each} {len(data)} {data.hex()}" for each in (max(day, 1) - 1, day, day + 1)]
    for _ in range(60):
        days = random.choice(((3,), (3,), (3, 4), (0, 3)))
        rows = [row_of(row(random, days)) for _ in range(random.randint(1, 9))]
        data = put_part(list({numbered.key()[1:]: numbered for numbered in rows}.values()))
        lines.append(f"{random.choice((3, 3, 3, 4))} {len(data)} {data.hex()}")
    return table(lines)
