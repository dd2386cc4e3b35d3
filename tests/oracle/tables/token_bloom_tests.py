"""Bloom filters with room for some words (docs/BYTES.md): their bytes, and which words they may have. The filter that
is read from these bytes has the same words. Bytes are a filter if they are words of 64 bits. The hash of a word, its
most significant byte first."""
from bloom_filters import Bloom, hash_of
from byte_items import cut_once, number_or
from chance import lines_of, table


def answers(stdin):
    return table(map(answer, lines_of(stdin)))


def answer(line):
    if line.startswith("hash "):
        return hash_of(line[5:].encode("utf-8")).to_bytes(8, "big").hex()
    if line.startswith("length "):
        length = number_or(line[7:], 0, 2**64)
        return "BadLength" if length % 8 else f"{length // 8} words"
    added, asked = cut_once(line, "|")
    room, words = cut_once(added, " ")
    bloom = Bloom(number_or(room, 0))
    for word in (words or "").split(" "):
        if word:
            bloom.add(word.encode("utf-8"))
    marks = ["++" if bloom.may_have(word.encode("utf-8")) else "--" for word in (asked or "").split(" ")]
    return bloom.to_bytes().hex() + "".join(marks)


def cases(random):
    lines = [f"length {length}" for length in [*range(26), 63, 64, 65, 8191, 8192, 8193, 65536]]
    lines += [f"hash {word}" for word in ["", "a", "b", "foobar", "żółw", "x" * 300]]
    lines += ["0 |", "1 |", "1", "0 a b|a b", f"1 {'x' * 5000}|{'x' * 5000} {'x' * 4999}", "3 é e\u0301|é e\u0301 e"]
    alphabet = "abcdefghijklmnopqrstuvwxyz0123456789_éß日本\U0001d54f"
    for room in [*range(1, 70), 127, 128, 129, 255, 256, 257, 1000]:
        words = ["".join(random.choices(alphabet, k=random.randrange(1, 12))) for _ in range(room * 2)]
        added = words[: random.choice([0, 1, room, room, room * 2])]
        lines.append(f"{room} {' '.join(added)}|{' '.join(words[: room + 20])}")
    return table(lines)
