"""Items of bytes: numbers whose least byte comes first, and texts after their length.

Bytes that are no spelling are damaged at the start of an item: at the first one that is incomplete or malformed, and
else at the first one that differs from the spelling of what was read.
"""


class Damaged(Exception):
    """Bytes are damaged at the item that starts at this place."""

    def __init__(self, at):
        super().__init__(at)
        self.at = at


class Items:
    """Reads items from bytes, and keeps the place where each of them starts."""

    def __init__(self, data):
        self.data, self.at, self.starts = data, 0, []

    def start(self):
        """Starts an item."""
        self.starts.append(self.at)

    def more(self, length):
        """Returns this many bytes more of the item that was started last."""
        if length > len(self.data) - self.at:
            self.damaged()
        self.at += length
        return self.data[self.at - length : self.at]

    def item(self, length):
        self.start()
        return self.more(length)

    def damaged(self):
        raise Damaged(self.starts[-1])

    def unsigned(self, length):
        return int.from_bytes(self.item(length), "little")

    def signed(self, length):
        return int.from_bytes(self.item(length), "little", signed=True)

    def below(self, length, limit):
        """Returns an unsigned number, whose form is that it is below a limit."""
        number = self.unsigned(length)
        if number >= limit:
            self.damaged()
        return number

    def codes(self, count, limit):
        """Returns this many bytes, each an item and below a limit."""
        data = self.data[self.at : self.at + count]
        if len(data) < count or max(data, default=0) >= limit:
            return [self.below(1, limit) for _ in range(count)]
        self.starts.extend(range(self.at, self.at + count))
        self.at += count
        return data

    def text(self, length):
        """Returns a text after its length, which has `length` bytes. Both are one item."""
        self.start()
        return self.decoded(self.more(int.from_bytes(self.more(length), "little")))

    def decoded(self, data):
        """Returns bytes of the item that was started last as text, which must be UTF-8."""
        try:
            return data.decode("utf-8")
        except UnicodeDecodeError:
            return self.damaged()

    def rest(self):
        return self.data[self.at :]

    def end(self):
        """Bytes after the last item are an item that nothing fits."""
        if self.at < len(self.data):
            raise Damaged(self.at)


def check_spelling(items, spelling):
    """Raises `Damaged` at the first item that differs from a spelling."""
    data = items.data
    if data == spelling:
        return
    shorter = min(len(data), len(spelling))
    place = next((n for n in range(shorter) if data[n] != spelling[n]), shorter)
    raise Damaged(max(start for start in items.starts if start <= place))


def unsigned(number, length):
    return number.to_bytes(length, "little")


def signed(number, length):
    return number.to_bytes(length, "little", signed=True)


def text(value, length):
    """Returns the bytes of a text after its length, which has `length` bytes."""
    data = value.encode("utf-8")
    return unsigned(len(data), length) + data


def bytes_of(digits):
    """Returns the bytes of hexadecimal digits. A digit without a second one is dropped."""
    return bytes.fromhex(digits[: len(digits) // 2 * 2])


def cut_once(line, mark):
    """Returns what stands before the first mark and what stands after it, or the line and None without a mark."""
    front, found, rest = line.partition(mark)
    return (front, rest) if found else (line, None)


def number_or(text, other, limit=2**32):
    """Returns the number that decimal digits are, or another one where a text is no number below a limit."""
    digits = text[1:] if text.startswith("+") else text
    if digits.isascii() and digits.isdigit() and int(digits) < limit:
        return int(digits)
    return other


def damaged_copies(data, random, count):
    """Returns copies of bytes: cut after each byte, with more bytes, and with other bytes at random places."""
    copies = [data[:length] for length in range(len(data))] + [data + b"\0", data + data]
    for _ in range(count if data else 0):
        place = random.randrange(len(data))
        byte = random.choice([0, 1, 2, 0x7F, 0x80, 0xFF, data[place] ^ 1, random.randrange(256)])
        copies.append(data[:place] + bytes([byte]) + data[place + 1 :])
    return copies
