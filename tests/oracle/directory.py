"""What a directory of logs holds, or where it is damaged (docs/BYTES.md, "Part" and "Slot of a list of parts")."""
import os
from typing import NamedTuple

from byte_items import Damaged
from parts import Version, read_part
from tables.part_batches_tests import hold
from tables.part_files_tests import DAY
from tables.parts_list_tests import Version as ListVersion
from tables.parts_list_tests import read_slot
from values import json_line

SLOTS = (0, 1)
FRONT_AT = 17  # where the front of a list stands in its slot


class Fault(Exception):
    """A directory that is refused, in the words of the program."""


class Directory(NamedTuple):
    """The live list, which is None where none was written, and the rows in the order of the history."""

    listing: object
    rows: list

    def front(self):
        return self.listing.front if self.listing else 0

    def answer(self):
        """Returns what the query `*` answers."""
        return "".join(json_line(numbered.row.record()) for numbered in self.rows).encode("utf-8")


def load(path):
    """Returns the bytes of each file of a directory, by its number."""
    files = {}
    for name in os.listdir(path):
        if name.isdigit():
            with open(os.path.join(path, name), "rb") as file:
                files[int(name)] = file.read()
    return files


def store(path, files):
    """Makes a directory that has these files."""
    os.mkdir(path)
    for number, data in files.items():
        with open(os.path.join(path, str(number)), "wb") as file:
            file.write(data)


def lists_of(files):
    """Returns the list of each slot, or None where it is closed. A missing file is an empty one."""
    found = []
    for slot in SLOTS:
        try:
            found.append(read_slot(files.get(slot, b""), slot))
        except Damaged as fault:
            raise damaged(slot, fault.at)
        except ListVersion as fault:
            raise Fault(f"version {fault.found} in file {slot}")
    return found


def live_list(files):
    """Returns the live list, or None where none was written."""
    open_ones = [listing for listing in lists_of(files) if listing]
    return max(open_ones, key=lambda listing: listing.generation, default=None)


def part_rows(day, file, stated, data):
    """Returns the rows of the part of an entry."""
    if len(data) != stated:
        raise damaged(file, min(len(data), stated))
    try:
        rows = read_part(data)
    except Damaged as fault:
        raise damaged(file, fault.at)
    except Version as fault:
        raise Fault(f"version {fault} in file {file}")
    if any(numbered.row.time // DAY != day for numbered in rows):
        raise damaged(file, 0)
    return rows


def read(files):
    """Returns what a directory of these files holds. Raises `Fault` where it is refused."""
    listing = live_list(files)
    if listing is None:
        return Directory(None, [])
    rows = []
    for day, file, stated in listing.entries:
        rows += part_rows(day, file, stated, files.get(file, b""))
    rows.sort(key=lambda numbered: numbered.key()[1:])
    if not hold(listing.front, [numbered.key()[1:] for numbered in rows]):
        raise damaged(listing.generation % 2, FRONT_AT)
    return Directory(listing, rows)


def damaged(file, at):
    return Fault(f"damaged file {file} at {at}")
