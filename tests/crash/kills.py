"""A server over a directory is killed within rounds that write batches to disk, while four connections insert rows,
and started again. Each life has batches of one row, and each row says which insert it was."""
import hashlib
import os
import random
import subprocess
import sys
import threading
import time
from collections import Counter

import directory
from program import Gone, Server, records, want

CONNECTIONS = 4
INSERTS = 600  # that each life answers before it is killed
LONGEST = 0.005  # seconds between the first bytes of a part and the kill
LIVES = 10  # of a directory
SHARE = 40  # percent of the kills that fall within a round, at least
STEPS = {"part": "while a part was written", "list": "while the list was", "removal": "before old parts were removed",
         None: "after a round"}
WITHIN = ("part", "list")  # between the first write of a part and the last sync of the list
PATIENCE = 60
FIRST_DAY = 1_700_006_400  # a midnight
DAY = 86_400
FEWEST_DAYS, MOST_DAYS = 2, 64  # of the rows of a life
NO_STREAM = hashlib.sha256(b"{}").hexdigest()[:32]


def row_of(number, life, days):
    """Returns the row of an insert. In each life the rows are spread over so many days, and each two lives have the
    same days."""
    moment = time.gmtime(FIRST_DAY + (life // 2 * MOST_DAYS + number % days) * DAY + number % DAY)
    time_text = time.strftime("%Y-%m-%dT%H:%M:%SZ", moment)
    return {"_time": time_text, "n": str(number), "life": str(life), "_msg": f"insert {number} of life {life}"}


def record_of(row):
    """Returns the record that a query writes of a row without labels."""
    return {**row, "_stream": "{}", "_stream_id": NO_STREAM}


class Life:
    """What the clients of a server saw until it was killed."""

    def __init__(self, life, first, days):
        self.life, self.days = life, days
        self.lock = threading.Lock()
        self.next, self.sent, self.accepted, self.settled = first, set(), {}, 0
        self.wrong, self.armed = [], threading.Event()

    def row(self, number):
        return row_of(number, self.life, self.days)

    def insert_on(self, connection):
        """Inserts row after row until the server is gone."""
        while True:
            with self.lock:
                number = self.next
                self.next += 1
                self.sent.add(number)
            batch = connection.insert(self.row(number))
            with self.lock:
                if batch is None:
                    self.sent.remove(number)
                elif self.accepted.setdefault(batch, number) != number:
                    self.wrong.append(f"batch {batch} was answered twice")
                if len(self.accepted) >= INSERTS:
                    self.armed.set()

    def look_on(self, connection):
        """Asks how many batches are settled until the server is gone."""
        while True:
            batches, settled = connection.status()
            if not self.settled <= settled <= batches:
                self.wrong.append(f"{settled} of {batches} batches are settled, after {self.settled}")
            self.settled = max(self.settled, settled)
            time.sleep(0.002)

    def start(self, server):
        """Starts the clients, and returns their threads."""
        works = [self.insert_on] * CONNECTIONS + [self.look_on]
        threads = [threading.Thread(target=self.until_gone, args=(work, server.connect())) for work in works]
        for thread in threads:
            thread.start()
        return threads

    def until_gone(self, work, connection):
        try:
            work(connection)
        except Gone:
            pass
        except Exception as wrong:  # it is said once the server is killed
            self.wrong.append(str(wrong))
        finally:
            connection.close()
            self.armed.set()


class History:
    """A directory over several lives: which insert each of its batches is."""

    def __init__(self, path):
        self.path, self.numbers = path, []
        self.lives = {}  # of each insert the life

    def check(self, found, life):
        """Checks what was found after a life, keeps it, and returns how many accepted inserts are not there."""
        numbers = [int(record["n"]) for record in found]
        front, before = len(numbers), len(self.numbers)
        want(f"{front} batches are found of {life.settled} settled ones", front >= life.settled)
        want("batches of earlier lives differ", numbers[:before] == self.numbers)
        want("an insert is there twice", len(set(numbers)) == front)
        batch_of = {number: batch for batch, number in life.accepted.items()}
        want(f"one of {min(life.accepted)} was there before", min(life.accepted) > before)
        for batch, number in enumerate(numbers[before:], before + 1):
            want(f"batch {batch} is no insert of this life", number in life.sent)
            want(f"batch {batch} is another insert", life.accepted.get(batch, number) == number)
            want(f"an insert of another batch is {batch}", batch_of.get(number, batch) == batch)
            self.lives[number] = life
        for number, record in zip(numbers, found):
            want(f"insert {number} is {record}", record == record_of(self.lives[number].row(number)))
        self.numbers = numbers
        return sum(batch > front for batch in life.accepted)

    def check_files(self):
        """Checks that the reader finds the same in the files."""
        rows = directory.read(directory.load(self.path)).rows
        batches = [(numbered.batch, numbered.place, int(numbered.row.fields["n"])) for numbered in rows]
        want("the reader finds other rows", batches == [(n, 0, number) for n, number in enumerate(self.numbers, 1)])


class Seen:
    """The files of a directory at a moment: their bytes, and when each was last written to."""

    def __init__(self, path):
        self.files = directory.load(path)
        self.written = {file: os.stat(os.path.join(path, str(file))).st_mtime_ns for file in self.files}
        self.live = directory.live_list(self.files)
        self.lists = directory.lists_of(self.files)

    def unnamed(self):
        named = {file for _, file, _ in self.live.entries} if self.live else set()
        return {file for file in self.files if file not in directory.SLOTS and file not in named}

    def step(self, before):
        """Returns the step of a round that had begun and not ended, or None. What earlier kills left does not count.
        Once the gate of the new list is open the step is the removal, also before the gate is synced: of that the files
        tell nothing."""
        old = before.unnamed()
        fresh = {file for file in self.unnamed() if file not in old or self.is_written_after(before, file)}
        slot = (self.live.generation + 1) % 2 if self.live else 1
        if slot in self.files and self.lists[slot] is None and self.is_written_after(before, slot):
            return "list"
        if any(self.live is None or file >= self.live.next_file for file in fresh):
            return "part"
        return "removal" if fresh else None

    def is_written_after(self, before, file):
        return self.written[file] != before.written.get(file)


class Kills:
    """All kills, and where they fell."""

    def __init__(self, work, count, seed):
        self.work, self.count, self.random = work, count, random.Random(seed)
        self.steps, self.inserts, self.lost, self.longest, self.days = Counter(), 0, 0, LONGEST, FEWEST_DAYS

    def run(self):
        for n in range(0, self.count, LIVES):
            self.run_directory(os.path.join(self.work, f"kills{n}"), min(LIVES, self.count - n))
        within = sum(self.steps[step] for step in WITHIN)
        want(f"only {within} of {self.count} kills fell within a round", 100 * within >= SHARE * self.count)
        places = ", ".join(f"{self.steps[step]} {text}" for step, text in STEPS.items())
        return (f"{self.count} kills: {places}; rows of up to {self.days} days; {self.inserts} inserts accepted, "
                f"{self.lost} of them lost")

    def run_directory(self, path, lives):
        """Kills a server over a new directory so many times. What each life left is found by the next one, or by the
        command `query`."""
        os.mkdir(path)
        history, life = History(path), None
        for number in range(lives):
            before, server = Seen(path), Server(path)
            try:
                if number % 2:
                    self.lost += history.check(server.connect().records(), life)
                want("batches and settled ones differ", len(set(server.connect().status())) == 1)
                life = Life(number, life.next if life else 0, self.days)
                self.live(server, life)
            finally:
                said = server.kill()
            want(f"the server said {said!r}", said == "")
            want("; ".join(life.wrong[:3]), not life.wrong)
            self.inserts += len(life.accepted)
            self.judge(Seen(path).step(before))
            if number % 2 or number == lives - 1:
                self.lost += history.check(records(path), life)
        history.check_files()

    def live(self, server, life):
        """Inserts until the killer has killed the server."""
        words = [sys.executable, os.path.join(os.path.dirname(__file__), "killer.py"), server.directory]
        killer = subprocess.Popen(
            [*words, str(server.process.pid)], stdin=subprocess.PIPE, stdout=subprocess.PIPE, text=True)
        threads = life.start(server)
        life.armed.wait(PATIENCE)
        event = "list" if life.life % 3 == 2 else "part"
        said, _ = killer.communicate(f"{event} {self.random.uniform(0, self.longest)}\n", PATIENCE)
        for thread in threads:
            thread.join()
        want("; ".join(life.wrong[:3]), not life.wrong)
        want(f"{len(life.accepted)} inserts were answered", len(life.accepted) >= INSERTS)
        want(f"no round began ({said!r})", said == "killed\n")

    def judge(self, step):
        """Counts a kill. Where it came too late the next ones come earlier, and the rounds have more parts to write."""
        self.steps[step] += 1
        if step not in WITHIN:
            self.longest, self.days = self.longest / 2, min(MOST_DAYS, 2 * self.days)
        else:
            self.longest = min(LONGEST, self.longest * 1.3)


def tests(work, options):
    yield "kills", Kills(work, options.kills, options.seed).run
