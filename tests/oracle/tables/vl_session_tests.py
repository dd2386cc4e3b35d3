"""Sessions over a log that is empty before: of HTTP (`connections`), and of syslog (`streams`), which begin with their
kind. Then a line for each check that has no case: the program has its bytes, and here they stand again.

The last two are sessions of several callers of one log. Their bytes and threads are the program's own; what is computed
here is what the log then says.
"""
from chance import lines_of, table
import connections
from faults import Fault
from needs import admitted, heads_of
from rows import Options
from sessions import UNSETTLED, HttpSession, Log, parsed, rows_of_body
from spelling import spelled
import streams
from values import json_line

KIND = "syslog / "
TIMES = (5,)
A, B, C = (b'{"_msg":"%s"}\n' % message for message in (b"a", b"b", b"c"))


def answers(stdin):
    return table([*map(answer, lines_of(stdin)), *checks()])


def answer(line):
    return streams.answer(line.removeprefix(KIND)) if line.startswith(KIND) else connections.answer(line)


def cases(random):
    return table([*connections.cases(random), *(KIND + line for line in streams.cases(random))])


def checks():
    alone = [streams.endless(), batches(), queries(), refusals(), full(), heavy(), opened()]
    return [*alone, two_sessions(), eight_sessions()]


def inserted(log, lines):
    """Inserts lines, and returns what came of it."""
    rows, refused = rows_of_body(Options([]), TIMES[0], lines)
    if rows:
        try:
            log.insert(rows)
        except Fault:
            return f"Full {{ held: {UNSETTLED} }}"
    return f"accepted {len(rows)}, refused {len(refused)}, batch {len(log.batches) if rows else 0}"


def asked(log, query):
    """Returns the answer to a query."""
    try:
        lines = "".join(map(json_line, log.records(query, TIMES[0])))
    except Fault as fault:
        if fault.name == "Overflow":
            return f"overflow in {fault.at}"
        return f"pattern {fault.at}" if fault.name == "RegexRefused" else f"query {fault}"
    return f"{len(log.batches)} batches {spelled(lines.encode('utf-8'), connections.LONGEST)}"


def served(log, data):
    """Returns what came of a connection."""
    return connections.told(HttpSession(log, data, TIMES))


def batches():
    log = Log()
    told = [inserted(log, lines) for lines in (A + b"\nx\n" + B, b"x\n", C)]
    return f"lines become one batch: {'; '.join(told)}; front {len(log.batches)}"


def queries():
    log = Log()
    none = asked(log, "*")
    inserted(log, A)
    inserted(log, B + b'{"_msg":"a c"}\n')
    return f"a query sees all batches: {none}; {asked(log, 'a | fields _msg')}"


def refusals():
    log = Log()
    told = inserted(log, b'{"a":"9223372036854775807"}\n{"a":"1"}\n')
    faults = [asked(log, query) for query in ("a | stats by (x)", 'b:~"c" or ~"("', "* | stats sum(a) as s")]
    return f"a query is refused by name: {told}; {'; '.join(faults)}"


def full():
    log = Log()
    in_turn = all(inserted(log, A) == f"accepted 1, refused 0, batch {number}" for number in range(1, UNSETTLED + 1))
    told = [inserted(log, A), inserted(log, b"x\n"), served(log, insert(A))]
    return (
        f"no more than {UNSETTLED:,} batches wait: {str(in_turn).lower()}; {'; '.join(told)}; front {len(log.batches)}"
    )


def heavy():
    log = Log()
    body = b'{"bc":1}\n\n' * 5000
    told = served(log, insert(body, b"?extra_fields=a=" + b"x" * 14000))
    return f"rows that are too heavy are not taken in: {told}; front {len(log.batches)}"


def opened():
    """Of two blocks one has no `error` and no `x`, the other both."""
    log, told = Log(), []
    for lines in (b'{"_msg":"ok"}\n{"_msg":"fine"}\n', b'{"_msg":"an error","x":"1"}\n'):
        told.append(inserted(log, lines))
        for query in ("!error", "error", "ok", "ok or x:*"):
            steps = admitted(parsed(query)[0], heads_of(log.batches), TIMES[0])
            found = "".join(f" {json_line(record)[:-1]}" for record in log.records(query, TIMES[0]))
            told.append(f"{query}: {steps} steps, {len(log.batches)} batches true{found}")
    return f"a query opens the blocks that it needs: {'; '.join(told)}"


def insert(body, arguments=b""):
    head = b"POST /insert/jsonline%s HTTP/1.1\r\nContent-Length: %d\r\n\r\n"
    return head % (arguments, len(body)) + body


def select(query):
    return b"GET /select/logsql/query?query=%s HTTP/1.1\r\n\r\n" % query


def two_sessions():
    """Between the second request of one session and its third one, the other inserts a line."""
    log, asks = Log(), select(b"*+%7C+fields+_msg")
    session = HttpSession(log, insert(A) + asks, TIMES)
    HttpSession(log, insert(B), TIMES)
    rest = HttpSession(log, insert(C) + asks, TIMES)
    session.written, session.turns, session.end = session.written + rest.written, session.turns + rest.turns, rest.end
    return f"two sessions: {connections.told(session)}"


def eight_sessions():
    log = Log()
    for caller in range(8):
        HttpSession(log, insert(b'{"caller":"%d"}\n' % caller) * 16, TIMES)
    return f"eight sessions insert and ask: {served(log, select(b'*+%7C+stats+count()+as+n'))}"
