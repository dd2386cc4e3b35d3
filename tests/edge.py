#!/usr/bin/env python3
"""The edge of the server: deadlines, descriptors that run out, connections that break, and what it says of its
addresses. Each check has a server of its own at a port that the system chose, and all run side by side, in below two
minutes. usage: tests/edge.py     (the environment variable DUVONKA is the path of another build)
Its last line is 'N passed, M failed'."""
import os, re, resource, shutil, signal, socket, struct, subprocess, sys, tempfile, threading, time

TOP = os.path.dirname(os.path.dirname(os.path.abspath(__file__)))
PROGRAM = os.environ.get("DUVONKA", os.path.join(TOP, "crates/duvonka/out/duvonka"))
HEALTH = b"GET /health HTTP/1.1\r\nHost: h\r\n\r\n"
LAST_HEALTH = b"GET /health HTTP/1.1\r\nHost: h\r\nConnection: close\r\n\r\n"
LATE = 3.0  # how many seconds later than its deadline a connection may end on a busy machine
SERVERS = []
FOLDER = tempfile.mkdtemp()  # has the directory of each server


class Wrong(Exception):
    """What was seen is not what was wanted."""


def want(what, seen):
    if not seen:
        raise Wrong(what)


def directory():
    """Returns a new directory for a server."""
    return tempfile.mkdtemp(dir=FOLDER)


class Server:
    """A server at ports that the system chose, over a directory of its own. Its first line names the ports."""

    def __init__(self, workers, syslog=False, files=None):
        words = [PROGRAM, "serve", "--dir", directory(), "--http", "127.0.0.1:0", "--workers", str(workers)]
        words += ["--syslog", "127.0.0.1:0"] if syslog else []
        limit = (lambda: resource.setrlimit(resource.RLIMIT_NOFILE, (files, files))) if files else None
        self.process = subprocess.Popen(
            words, stdin=subprocess.DEVNULL, stdout=subprocess.DEVNULL, stderr=subprocess.PIPE, preexec_fn=limit)
        SERVERS.append(self.process)
        self.line = self.process.stderr.readline().decode()
        self.ports = {name: int(port) for name, port in re.findall(r"(http|syslog) on 127\.0\.0\.1:(\d+)", self.line)}
        want(f"the server said {self.line!r}", "http" in self.ports)

    def connect(self, name="http", room=None):
        stream = socket.socket()
        if room:
            stream.setsockopt(socket.SOL_SOCKET, socket.SO_RCVBUF, room)
        stream.settimeout(110)
        stream.connect(("127.0.0.1", self.ports[name]))
        return stream

    def ask(self, request):
        """Sends one last request, and returns its whole reply."""
        with self.connect() as stream:
            stream.sendall(request)
            return rest_of(stream)

    def count(self, query):
        """Returns how many rows a query finds."""
        body = f"query={query} | stats count() as n".replace(" ", "+").encode()
        reply = self.ask(post(b"/select/logsql/query", body, b"application/x-www-form-urlencoded"))
        found = re.search(rb'\{"n":"(\d+)"\}', reply)
        want(f"a count was answered with {reply[:200]!r}", found)
        return int(found.group(1))


def post(path, body, kind=b"application/stream+json"):
    head = b"POST %s HTTP/1.1\r\nHost: h\r\nContent-Type: %s\r\nContent-Length: %d\r\nConnection: close\r\n\r\n"
    return head % (path, kind, len(body)) + body


def rest_of(stream):
    """Returns what still comes, until the connection ends. A reset ends it too."""
    parts = []
    while True:
        try:
            part = stream.recv(65536)
        except ConnectionResetError:
            part = b""
        if not part:
            return b"".join(parts)
        parts.append(part)


def is_healthy(reply):
    return reply.startswith(b"HTTP/1.1 200 OK\r\n") and reply.endswith(b"\r\n\r\nOK\n")


def lasts(start, least, most):
    seconds = time.monotonic() - start
    want(f"{seconds:.1f} s, not {least} to {most}", least <= seconds <= most)


def one_line_names_the_addresses():
    server = Server(3, syslog=True)
    form = r"http on 127\.0\.0\.1:\d+ \(workers: 3\), syslog on 127\.0\.0\.1:\d+ \(workers: 3\)\n"
    want(f"it said {server.line!r}", re.fullmatch(form, server.line))
    want("it does not answer there", is_healthy(server.ask(LAST_HEALTH)))
    server.connect("syslog").close()
    taken = f"127.0.0.1:{server.ports['http']}"
    why = f"cannot listen on {taken}: Address already in use (os error 98)\n"
    second = subprocess.run(
        [PROGRAM, "serve", "--dir", directory(), "--http", taken, "--syslog", taken],
        capture_output=True, text=True, timeout=30)
    want(f"a port in use: {second}", (second.returncode, second.stderr) == (7, why + why + "door fault\n"))
    words = [PROGRAM, "serve", "--dir", directory(), "--http", "127.0.0.1:0", "--syslog", taken, "--workers", "1"]
    half = subprocess.Popen(words, stdin=subprocess.DEVNULL, stderr=subprocess.PIPE, text=True)
    SERVERS.append(half)
    said = half.stderr.readline(), half.stderr.readline()
    form = r"http on 127\.0\.0\.1:\d+ \(workers: 1\)\n"
    want(f"one of two: {said}", said[0] == why and re.fullmatch(form, said[1]))
    server.process.terminate()
    want("it said more", server.process.stderr.read() == b"")


def a_silent_connection_ends_after_5_s():
    server = Server(2)
    start = time.monotonic()
    with server.connect() as stream:
        want("a reply to nothing", rest_of(stream) == b"")
    lasts(start, 4.5, 5 + LATE)


def silence_between_requests_ends_after_5_s():
    server = Server(2)
    with server.connect() as stream:
        for pause in (3, 3, 0):  # a pause of 3 s is no reason to end
            stream.sendall(HEALTH)
            reply = b""
            while not reply.endswith(b"\r\n\r\nOK\n"):
                reply += stream.recv(4096) or b"ended\r\n\r\nOK\n"
            want(f"it answered {reply!r}", is_healthy(reply))
            time.sleep(pause)
        start = time.monotonic()
        want("a reply to nothing", rest_of(stream) == b"")
    lasts(start, 4.5, 5 + LATE)


def drip(stream, ends):
    """Sends a header byte by byte, one each 5 seconds, until the connection ends, and notes when it did."""
    stream.sendall(b"GET /health HTTP/1.1\r\n")
    stream.settimeout(5)
    for _ in range(22):
        try:
            if not stream.recv(1):
                break
        except socket.timeout:
            try:
                stream.sendall(b"x")
            except OSError:
                break
            continue
        except OSError:
            break
        ends.append("a reply")
        return
    else:
        ends.append("none")
        return
    ends.append("ended")


def a_good_client_is_answered_behind_slow_ones():
    server = Server(8)
    ends = []
    slow = [threading.Thread(target=drip, args=(server.connect(), ends)) for _ in range(20)]
    for each in slow:
        each.start()
    start = time.monotonic()
    want("no reply", is_healthy(server.ask(LAST_HEALTH)))
    lasts(start, 55, 75)
    for each in slow:
        each.join()
    want(f"the slow ones: {ends}", ends == ["ended"] * 20)


def a_request_has_30_s():
    server = Server(1)
    start = time.monotonic()
    with server.connect() as stream:
        stream.sendall(b"GET /health HTTP/1.1\r\n")
        while time.monotonic() < start + 24:
            time.sleep(4)
            stream.sendall(b"X: y\r\n")
        want("a reply", rest_of(stream) == b"")
    lasts(start, 29, 30 + LATE)


def a_large_request_has_longer():
    # 5 MiB in some 42 s: 30 s would not do, and 1 s more for each 64 KiB does.
    server = Server(1)
    line = b'{"_msg":"' + b"a" * 250_000 + b'"}\n'
    whole = post(b"/insert/jsonline", line * 20)
    start = time.monotonic()
    with server.connect() as stream:
        for at in range(0, len(whole), 65_536):
            stream.sendall(whole[at : at + 65_536])
            time.sleep(0.55)
        lasts(start, 40, 100)
        reply = rest_of(stream)
    want(f"it answered {reply!r}", reply.startswith(b"HTTP/1.1 200 OK\r\n") and b'"accepted":"20"' in reply)


def fill(server, megabytes):
    line = b'{"_msg":"' + b"a" * 249_750 + b'"}\n'
    for _ in range(megabytes // 8):
        want("not inserted", server.ask(post(b"/insert/jsonline", line * 32)).startswith(b"HTTP/1.1 200 OK\r\n"))


SELECT = post(b"/select/logsql/query", b"query=*", b"application/x-www-form-urlencoded")


def a_reply_that_is_not_taken_ends():
    server = Server(1)
    fill(server, 32)
    with server.connect(room=4096) as stream:
        stream.sendall(SELECT)
        start = time.monotonic()
        time.sleep(1)
        want("no reply behind it", is_healthy(server.ask(LAST_HEALTH)))
        # What the system takes in the client's place pays for more seconds.
        lasts(start, 9, 95)


def a_reply_that_is_taken_slowly_is_whole():
    server = Server(1)
    fill(server, 32)
    start = time.monotonic()
    with server.connect(room=65_536) as stream:
        stream.sendall(SELECT)
        came = 0
        while part := stream.recv(65_536):
            came += len(part)
            time.sleep(0.04 * len(part) / 65_536)
    lasts(start, 15, 100)
    want(f"{came} bytes came", came > 31_000_000)


def a_silent_syslog_peer_stays():
    server = Server(1, syslog=True)
    with server.connect("syslog") as stream:
        for number in (1, 2):
            message = b"<14>1 - - - - - - message %d" % number
            stream.sendall(b"%d %s" % (len(message), message))
            if number == 1:
                time.sleep(40)
        end = time.monotonic() + 20
        while server.count("*") < 2 and time.monotonic() < end:
            time.sleep(0.2)
    want(f"{server.count('*')} messages, not 2", server.count("*") == 2)


def accepting_goes_on_without_descriptors():
    # Three streams, the directory, a listener, and room for four connections.
    server = Server(8, files=9)
    idle = [server.connect() for _ in range(12)]
    start = time.monotonic()
    for stream in idle[1:]:
        with stream:
            stream.sendall(LAST_HEALTH)
            want("no reply", is_healthy(rest_of(stream)))
    lasts(start, 0, 30)
    idle[0].close()
    for _ in range(20):
        want("no reply then", is_healthy(server.ask(LAST_HEALTH)))
    want("it ended", server.process.poll() is None)


def held_connections_wait_for_descriptors():
    server = Server(8, files=9)
    idle = [server.connect() for _ in range(6)]  # the fifth finds no descriptor
    time.sleep(1)
    start = time.monotonic()
    want("no reply", is_healthy(server.ask(LAST_HEALTH)))
    lasts(start, 2, 30)
    for stream in idle:
        stream.close()
    want("it ended", server.process.poll() is None)


def connections_that_are_reset_are_passed_over():
    server = Server(2)
    for _ in range(100):
        stream = server.connect()
        stream.setsockopt(socket.SOL_SOCKET, socket.SO_LINGER, struct.pack("ii", 1, 0))
        stream.close()
    want("no reply", is_healthy(server.ask(LAST_HEALTH)))
    want("it ended", server.process.poll() is None)


def an_interrupted_read_goes_on():
    server = Server(2)
    with server.connect() as stream:
        stream.sendall(LAST_HEALTH[:20])
        for _ in range(3):
            time.sleep(0.5)
            server.process.send_signal(signal.SIGSTOP)
            time.sleep(0.5)
            server.process.send_signal(signal.SIGCONT)
        time.sleep(0.5)
        stream.sendall(LAST_HEALTH[20:])
        want("no reply", is_healthy(rest_of(stream)))


CHECKS = (
    one_line_names_the_addresses,
    a_silent_connection_ends_after_5_s,
    silence_between_requests_ends_after_5_s,
    a_good_client_is_answered_behind_slow_ones,
    a_request_has_30_s,
    a_large_request_has_longer,
    a_reply_that_is_not_taken_ends,
    a_reply_that_is_taken_slowly_is_whole,
    a_silent_syslog_peer_stays,
    accepting_goes_on_without_descriptors,
    held_connections_wait_for_descriptors,
    connections_that_are_reset_are_passed_over,
    an_interrupted_read_goes_on,
)


def main():
    if not os.access(PROGRAM, os.X_OK):
        print("FAILED all: the program is not built: run ./duvonka --build, or set DUVONKA to the path of one\n0 passed, 1 failed")
        return 1
    chosen = [check for check in CHECKS if len(sys.argv) < 2 or check.__name__ in sys.argv[1:]]
    outcomes = {}

    def run(check):
        try:
            check()
            outcomes[check] = None
        except Exception as wrong:  # whatever is wrong is the outcome of that check
            outcomes[check] = wrong

    threads = [threading.Thread(target=run, args=(check,), daemon=True) for check in chosen]
    try:
        for thread in threads:
            thread.start()
        end = time.monotonic() + 115
        for thread in threads:
            thread.join(max(0, end - time.monotonic()))
    finally:
        for process in SERVERS:
            process.kill()
            process.wait()
        shutil.rmtree(FOLDER)
    failed = 0
    for check in chosen:
        outcome = outcomes.get(check, "it has not ended after 115 s")
        if outcome is not None:
            failed += 1
            print(f"FAILED {check.__name__}: {outcome!r}")
    print(f"{len(chosen) - failed} passed, {failed} failed")
    return 1 if failed else 0


if __name__ == "__main__":
    sys.exit(main())
