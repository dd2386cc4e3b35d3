#!/usr/bin/env python3
"""Whoever sends logs must not be able to choose values that make the hash tables of a query slow.

usage: tests/chosen_keys.py [PIPE..]     (the environment variable DUVONKA is the path of another build)
- Values that all have one hash under the hasher of std with its fixed seed (`FoldHasher`). Runs each pipe over so many
  of them and over twice as many. It fails where twice the values take more than 2.6 times the processor time.
- Under strace: each query takes a seed of its own from the system, and is answered where the system gives none.
  Skipped where strace is not installed or cannot trace.
The last line is 'N passed, M failed, K skipped'.
"""
import os
import re
import resource
import shutil
import subprocess
import sys
import tempfile

COUNT = 16_000
MOST_TIMES = 2.6
LEAST_SECONDS = 0.3
PIPES = (
    "stats by (x) count() as n",
    "uniq by (x)",
    "top 3 by (x)",
    "sort by (x)",
    "stats count_uniq(x) as n",
    "stats uniq_values(x) as n",
)

# The constants of std's FoldHasher.
STATE = 0x243F_6A88_85A3_08D3
MULTIPLIER = 0x9E37_79B9_7F4A_7C15
WORD = 2**64 - 1
LENGTH = 32


def folded(a, b):
    """The halves of the product of two words, joined."""
    product = a * b
    return product & WORD ^ product >> 64


def is_plain(word):
    """Whether a word is eight printable ASCII characters that a JSON string holds as they are."""
    return all(32 <= byte < 127 and byte not in b'"\\' for byte in word.to_bytes(8, "little"))


def common_front():
    """The first 24 of 32 bytes. The third word is what the hasher has made of the first two, so that it comes to 0, and
    so does its product with any fourth word."""
    second = int.from_bytes(b"-chosen-", "little")
    for number in range(10**8):
        first = int.from_bytes(b"%08d" % number, "little")
        third = folded(first ^ STATE + LENGTH, second ^ MULTIPLIER)
        if is_plain(third):
            return b"".join(word.to_bytes(8, "little") for word in (first, second, third)).decode()
    raise AssertionError("no such front")


def lines(front, count):
    """So many log lines, each with another chosen value."""
    return "".join(f'{{"_msg":"m","x":"{front}{i:08d}"}}\n' for i in range(count)).encode()


def seconds(program, pipe, data):
    """The processor time that the program takes over these lines."""
    with tempfile.TemporaryFile() as given:
        given.write(data)
        given.seek(0)
        before = resource.getrusage(resource.RUSAGE_CHILDREN)
        subprocess.run([program, "pipe", "* | " + pipe], stdin=given, stdout=subprocess.DEVNULL, check=True, timeout=300)
        after = resource.getrusage(resource.RUSAGE_CHILDREN)
    return after.ru_utime + after.ru_stime - before.ru_utime - before.ru_stime


def seeds(program, words, data, *options):
    """How many seeds of 16 bytes the program asks the system for, and what it writes."""
    with tempfile.NamedTemporaryFile("r") as trace:
        run = subprocess.run(["strace", "-f", "-o", trace.name, "-e", "trace=getrandom", *options, program, *words],
                             input=data, stdout=subprocess.PIPE, timeout=60)
        return len(re.findall(r"getrandom\(.*, 16, ", trace.read())), run.stdout


def seed_faults(program):
    """What is wrong with the seeds of the program's queries."""
    query, data = ["pipe", "* | stats by (x) count() as n | sort by (x)"], lines("", 100)
    count, answer = seeds(program, query, data)
    if count != 1 or not answer:
        yield f"pipe: its one query takes {count} seeds"
    with tempfile.TemporaryDirectory() as directory:
        count, _ = seeds(program, ["query", "--dir", directory, query[1]], b"")
    if count != 1:
        yield f"query: its one query takes {count} seeds"
    count, _ = seeds(program, ["trial", "7", "100"], b"")
    if count != 3:
        yield f"trial: its three queries take {count} seeds"
    for options in (["-e", "inject=getrandom:error=ENOSYS"], ["-e", "inject=getrandom:error=EINTR:when=1"]):
        if seeds(program, query, data, *options)[1] != answer:
            yield f"pipe: another answer with {options[1]}"


def main():
    top = os.path.dirname(os.path.dirname(os.path.abspath(__file__)))
    program = os.environ.get("DUVONKA", os.path.join(top, "crates/duvonka/out/duvonka"))
    front = common_front()
    one, two = lines(front, COUNT), lines(front, 2 * COUNT)
    passed = failed = 0
    for pipe in sys.argv[1:] or PIPES:
        first, second = seconds(program, pipe, one), seconds(program, pipe, two)
        if second > LEAST_SECONDS and second > MOST_TIMES * first:
            failed += 1
            print(f"FAILED {pipe}: {COUNT} values take {first:.2f} s, twice as many {second:.2f} s")
        else:
            passed += 1
    skipped = 0
    if shutil.which("strace") and subprocess.run(["strace", "-o", "/dev/null", "true"]).returncode == 0:
        faults = list(seed_faults(program))
        failed += len(faults)
        passed += 5 - len(faults)
        for fault in faults:
            print("FAILED", fault)
    else:
        skipped = 5
        print("skipped: strace is missing or cannot trace, so no seed was seen")
    print(f"{passed} passed, {failed} failed, {skipped} skipped")
    return failed > 0


if __name__ == "__main__":
    sys.exit(main())
