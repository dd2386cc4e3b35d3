"""Parts of blocks as bytes and back (docs/BYTES.md, "Part")."""
from blocks import CELLS, COLUMNS, ROWS, Numbered, may_be_block, names_of, put_block, rows_of, take_parts
from byte_items import Damaged, Items, check_spelling, unsigned
from values import in_order
from words import size

HEAVIEST = 67108864
MAGIC = b"VLPART"


class Version(Exception):
    """Bytes are a part of another version."""


def order(numbered):
    """Returns what the rows of a part are in order of."""
    labels = [(name.encode("utf-8"), value.encode("utf-8")) for name, value in in_order(numbered.row.labels)]
    return labels, numbered.key()


def weight(rows):
    return sum(size(text) for numbered in rows for pair in numbered.row.fields.items() for text in pair)


def may_be_part(rows):
    """Returns whether rows are those of a part in some order."""
    apart = len({numbered.key()[1:] for numbered in rows}) == len(rows)
    return bool(rows) and apart and weight(rows) <= HEAVIEST


def has_room(block, numbered):
    rows, names = len(block) + 1, len(names_of([*block, numbered]))
    same = block[0].row.labels == numbered.row.labels
    return same and rows <= ROWS and names <= COLUMNS and rows * names <= CELLS


def blocks_of(rows):
    """Returns the blocks of rows, which are put in order first."""
    blocks = []
    for numbered in sorted(rows, key=order):
        if blocks and has_room(blocks[-1], numbered):
            blocks[-1].append(numbered)
        else:
            blocks.append([numbered])
    return blocks


def put_blocks(blocks):
    """Returns the bytes of a part of these blocks, which are bytes."""
    head = MAGIC + unsigned(1, 2) + unsigned(len(blocks), 4)
    return head + b"".join(unsigned(len(block), 4) + block for block in blocks)


def put_part(rows):
    return put_blocks([put_block(block) for block in blocks_of(rows)])


def take_block(items):
    """Returns what the items of a block after its length say."""
    end = items.unsigned(4) + items.at
    inside = Items(items.data[:end])
    inside.at = items.at
    parts = take_parts(inside)
    if end > len(items.data):
        raise Damaged(len(items.data))
    items.starts += inside.starts
    items.at = end
    return parts


def read_part(data):
    """Returns the rows of the part whose spelling the bytes are."""
    items = Items(data)
    if items.item(len(MAGIC)) != MAGIC:
        items.damaged()
    version = items.unsigned(2)
    if version != 1:
        raise Version(version)
    found = [take_block(items) for _ in range(items.unsigned(4))]
    items.end()
    blocks = [rows_of(parts) for parts in found]
    if not all(block is not None and may_be_block(block) for block in blocks):
        raise Damaged(0)
    rows = [numbered for block in blocks for numbered in block]
    if not may_be_part(rows):
        raise Damaged(0)
    check_spelling(items, put_part(rows))
    return rows


def in_batch(rows, number):
    """Returns the rows as those of one batch, with their places."""
    return [Numbered(numbered.row, number, place) for place, numbered in enumerate(rows)]
