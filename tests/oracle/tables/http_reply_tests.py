"""Replies to requests (docs/HTTP.md). A reply in two parts has the same bytes, and its first part is the head."""
from chance import lines_of, table
from http_replies import JSON, LINES, TEXT, Reply

KINDS = {"text": TEXT, "json": JSON, "lines": LINES}
REFUSED = ["400", "404", "405 GET", "405 POST", "405 GET POST", "413", "415", "422", "503", "507", "no memory"]


def answers(stdin):
    return table(map(answer, lines_of(stdin)))


def answer(line):
    name, status, delivery, content = (line.split(" | ", 3) + ["", "", ""])[:4]
    content = content.replace("\\n", "\n")
    code, *rest = status.split(" ")
    if code == "200":
        reply = Reply(200, content, KINDS[rest[0]])
    elif status == "no memory":
        # what the reply says is fixed, so that no memory is needed
        reply = Reply(507, "no memory\n")
    else:
        reply = Reply(int(code), content, methods=tuple(rest))
    data = reply.to_bytes(closes="closes" in delivery, bare="bare" in delivery).decode("utf-8")
    return f"{name} | " + data.replace("\r", "\\r").replace("\n", "\\n")


CONTENTS = ["", "\\n", "OK\\n", "é\\n", "日本語\\n", '{"a":"b"}\\n' * 3, "x" * 99, "x" * 1000, "a | b\\n", "a\\\\b"]


def cases(random):
    lines = []
    for status in [*(f"200 {kind}" for kind in KINDS), *REFUSED]:
        for delivery in ("open", "closes", "bare", "bare closes"):
            # a bare reply is one to HEAD, to which no path replies with a body
            if delivery.startswith("bare") and status.startswith("200"):
                continue
            contents = random.sample(CONTENTS, 3) + ["y" * random.randrange(3000)]
            lines += [f"{status}, {delivery} {n} | {status} | {delivery} | {text}" for n, text in enumerate(contents)]
    return table(lines)
