#!/usr/bin/env python3
"""Crashes, damage and full disks: what the program finds in a directory after them is what it promised to keep.

- kills: a server is killed within the rounds that write batches to disk, from the first write of a part to the last
  sync of the list, and started again
- bytes: each byte of a small directory is changed, and each file cut, lengthened, missing and exchanged
- disks: files may not pass a size, or a file system is full
- cuts: the calls of a run are replayed, and what a power cut may leave at each of them is opened

usage: tests/crash.py [--kills N] [--seed N] [--inject FAULT ..] [GROUP ..]

The environment variable DUVONKA is the path of another build. By hand `--inject fsync:retval=0` lets strace make each
sync of the traced runs do nothing; the power cuts must then fail.
Its last line is 'N passed, M failed, K skipped'."""
import argparse
import os
import sys
import tempfile
import time

# nothing is left in the checkout
sys.dont_write_bytecode = True
HERE = os.path.dirname(os.path.abspath(__file__))
sys.path[:0] = [os.path.join(HERE, "crash"), os.path.join(HERE, "oracle")]

import changed_bytes
import full_disk
import kills
import power_cuts
from program import PROGRAM, Skip

# where servers and loads write, and where directories are that are only read
DISK = next((path for path in ("/var/tmp",) if "TMPDIR" not in os.environ and os.access(path, os.W_OK)), None)
QUICK = next((path for path in ("/dev/shm",) if os.access(path, os.W_OK)), None)
# the bytes come first: what a program takes is not seen below what this one had taken before
GROUPS = {"bytes": changed_bytes, "kills": kills, "disks": full_disk, "cuts": power_cuts}


def options_of(words):
    parser = argparse.ArgumentParser(usage=__doc__.split("usage: ")[1].split("\n")[0])
    parser.add_argument("--kills", type=int, default=30)
    parser.add_argument("--seed", type=int, default=1)
    parser.add_argument("--inject", action="append", default=[], help="faults that strace puts into the traced runs")
    parser.add_argument("groups", nargs="*")
    options = parser.parse_args(words)
    unknown = [name for name in options.groups if name not in GROUPS]
    if unknown:
        parser.error(f"no group is named {unknown[0]}")
    return options


def attempt(name, test):
    """Runs a test, prints what it did, and returns 0 where it passed, 1 where it failed and 2 where it was skipped."""
    start = time.monotonic()
    try:
        said = test()
    except Skip as skip:
        print(f"skipped {name}: {skip}", flush=True)
        return 2
    except Exception as wrong:  # whatever is wrong is the outcome of that test
        print(f"FAILED {name}: {type(wrong).__name__}: {wrong}", flush=True)
        return 1
    print(f"{name}: {said} ({time.monotonic() - start:.0f} s)", flush=True)
    return 0


def main():
    options = options_of(sys.argv[1:])
    if not os.access(PROGRAM, os.X_OK):
        print("FAILED all: the program is not built: run ./duvonka --build, or set DUVONKA to the path of one")
        print("0 passed, 1 failed, 0 skipped")
        return 1
    outcomes = [0, 0, 0]
    with tempfile.TemporaryDirectory(dir=DISK) as work, tempfile.TemporaryDirectory(dir=QUICK) as options.quick:
        for name in options.groups or GROUPS:
            for test_name, test in GROUPS[name].tests(work, options):
                outcomes[attempt(test_name, test)] += 1
    print(f"{outcomes[0]} passed, {outcomes[1]} failed, {outcomes[2]} skipped")
    return int(outcomes[1] > 0)


if __name__ == "__main__":
    sys.exit(main())
