"""Kills a server within a round that writes batches to disk.

usage: killer.py DIRECTORY PROCESS     (standard input: a line `part SECONDS` or `list SECONDS`)
From that line on it looks for a new part in the directory. Once the part has its first bytes, or once the list is
written to after that, it waits so long, kills the process, and says so."""
import os
import signal
import sys
import time

PATIENCE = 30  # seconds until a round begins
SLOTS = ("0", "1")


def parts(directory):
    return {name for name in os.listdir(directory) if name not in SLOTS}


def stamp(path):
    """Returns how many bytes a file has and when it was changed, or 0 of both where there is none."""
    try:
        found = os.stat(path)
    except FileNotFoundError:
        return 0, 0
    return found.st_size, found.st_mtime_ns


def waits_for(seen):
    """Waits until something is seen, and returns whether it was."""
    end = time.monotonic() + PATIENCE
    while time.monotonic() < end:
        if seen():
            return True
    return False


def hurry():
    """Runs before others, where the system lets it."""
    try:
        os.nice(-15)
    except OSError:
        pass


def main():
    hurry()
    directory, process = sys.argv[1], int(sys.argv[2])
    slots = [os.path.join(directory, name) for name in SLOTS]
    event, seconds = sys.stdin.readline().split()
    lists, known, changed = None, parts(directory), stamp(directory)

    def has_part():
        # the names are read only once one has come or gone
        return stamp(directory) != changed and any(stamp(os.path.join(directory, name))[0] > 0 for name in parts(directory) - known)

    def has_list():
        return [stamp(slot) for slot in slots] != lists

    seen = waits_for(has_part)
    if event == "list":
        lists = [stamp(slot) for slot in slots]
        seen = seen and waits_for(has_list)
    end = time.perf_counter() + float(seconds)
    while time.perf_counter() < end:
        pass
    os.kill(process, signal.SIGKILL)
    print("killed" if seen else "no round")


main()
