"""Lines of JSON whose rows become blocks (docs/FORMATS.md, docs/BYTES.md): how many rows, bytes and blocks they are.

The file `args` of the crate says how many rows after one another become a block, if they are in order and of one
stream. Those that are no block are not counted.
"""
from pathlib import Path

from blocks import Numbered, is_block, put_block
from rows import Options
from sessions import rows_of_body

ARGS = Path(__file__).resolve().parents[3] / "crates" / "block_stdio" / "args"
NOW, BATCH = 0, 1


def answers(stdin):
    most = int(ARGS.read_text().split()[0])
    rows, _ = rows_of_body(Options([]), NOW, stdin)
    numbered = [Numbered(row, BATCH, place) for place, row in enumerate(rows)]
    blocks = [numbered[first : first + most] for first in range(0, len(numbered), most)]
    blocks = list(filter(is_block, blocks))
    sizes = [len(put_block(block)) for block in blocks]
    return f"{sum(map(len, blocks))} rows, {sum(sizes)} bytes, {len(blocks)} blocks\n".encode()


VALUES = ['"a b"', '"error: é"', "7", "-1", "null", "true", '["a", 1]', '{"b":"c"}', '""', f'"{"x" * 300}"']


def cases(random):
    lines, second = [], 1714557600
    for _ in range(400):
        second += random.choice([0, 0, 1, 1, 1, -1])
        time = [] if random.random() < 0.05 else [f'"_time":{second}']
        names = random.sample(["_msg", "app", "n", "日", "_stream"], random.randrange(4))
        members = time + [f'"{name}":{random.choice(VALUES)}' for name in names]
        lines.append(random.choice(["{%s}"] * 9 + ["%s"]) % ",".join(members))
    return "\n".join(lines).encode("utf-8")
