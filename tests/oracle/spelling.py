r"""Bytes as visible text: a byte that is not visible ASCII is written as `\0a;`, and n of the same as `\61x65536;`."""
import re

LONGEST = 400  # of more bytes most tables write only the number
CODE = re.compile(rb"\\([0-9a-f]{2})(?:x([0-9]+))?;")


def unspelled(text):
    """Returns the bytes that a visible text says."""
    return CODE.sub(lambda code: bytes([int(code[1], 16)]) * int(code[2] or 1), text.encode("utf-8"))


def is_visible(byte):
    return 33 <= byte <= 126 and byte != ord("\\")


def spelled(data, longest=LONGEST):
    """Returns bytes as they are written in answers."""
    if len(data) > longest:
        return f"({len(data)} bytes)"
    return "".join(chr(byte) if is_visible(byte) else f"\\{byte:02x};" for byte in data)


def case_of(data):
    """Returns bytes as they are written in cases, with runs of one byte as their number."""
    runs = re.findall(rb"(?s)((.)\2{19,}|.)", data)
    return "".join(f"\\{run[0]:02x}x{len(run)};" if len(run) > 1 else spelled(run) for run, _ in runs)
