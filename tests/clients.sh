#!/usr/bin/env bash
# Real clients against servers of the built program, which this script starts on ports of 127.0.0.1 and ends: curl,
# python3, logger, rsyslogd, syslog-ng and wrk, as far as they are installed, and bytes that bash itself sends.
# usage: tests/clients.sh     (the environment variable DUVONKA is the path of another build)
# Its last line is 'N passed, M failed, K skipped'.
set -u
export LC_ALL=C.UTF-8
top=$(cd "$(dirname "$0")/.." && pwd)
program=${DUVONKA:-$top/crates/duvonka/out/duvonka}
# fail_all WHY: nothing can be tested
fail_all() {
  echo "FAILED all: $1"
  echo "0 passed, 1 failed, 0 skipped"
  exit 1
}

for tool in mktemp timeout sha256sum sed seq; do
  command -v "$tool" > /dev/null || fail_all "there is no $tool"
done
[ -x "$program" ] || fail_all "the program is not built: run ./duvonka --build, or set DUVONKA to the path of one"
work=$(mktemp -d) || exit 1
# shellcheck source=tests/serving.sh
. "$top/tests/serving.sh"
senders=()
# end: stops everything that this script started
end() {
  local id
  for id in "${senders[@]}"; do kill "$id" 2> /dev/null; done
  stop_servers
  rm -rf "$work"
}
trap end EXIT
trap 'exit 1' INT TERM
PATH=$PATH:/usr/sbin:/sbin
passed=0 failed=0 skipped=0

# judge NAME GOT WANTED
judge() {
  if [ "$2" = "$3" ]; then
    passed=$((passed + 1))
  else
    failed=$((failed + 1))
    printf 'FAILED %s: %q, not %q\n' "$1" "${2:0:400}" "${3:0:400}"
  fi
}

# skip NAME WHY
skip() {
  skipped=$((skipped + 1))
  echo "SKIPPED $1: $2"
}

# has NAME TOOLS..: succeeds if these tools are installed; otherwise reports that the part is skipped
has() {
  local name=$1 tool
  shift
  for tool in "$@"; do
    command -v "$tool" > /dev/null || { skip "$name" "there is no $tool"; return 1; }
  done
}

text='text/plain; charset=utf-8' json=application/json records=application/stream+json
bad='400 Bad Request' large='413 Content Too Large' no_method='405 Method Not Allowed'

# page STATUS TYPE CONTENT [ALLOW] [close]: prints a whole reply, with the header lines of docs/HTTP.md in their order.
# Content that is not empty ends with a line feed
page() {
  local content=$3 size=0 lines
  [ -z "$content" ] || { content=$content$'\n'; size=$(printf %s "$content" | wc -c); }
  lines="HTTP/1.1 $1"$'\r\n'
  [ -z "${4:-}" ] || lines+="Allow: $4"$'\r\n'
  lines+="Content-Type: $2"$'\r\n'"Content-Length: $size"$'\r\n'
  [ -z "${5:-}" ] || lines+=$'Connection: close\r\n'
  printf '%s\r\n%s' "$lines" "$content"
}

# bare ALLOW [close]: prints a whole reply to HEAD
bare() {
  local lines="HTTP/1.1 $no_method"$'\r\n'"Allow: $1"$'\r\n'"Content-Type: $text"$'\r\n'
  [ -z "${2:-}" ] || lines+=$'Connection: close\r\n'
  printf '%s\r\n' "$lines"
}

# accepted ROWS BATCH [FAULTS REFUSED]: prints the body of the reply to an insert
accepted() {
  printf '{"accepted":"%s",' "$1"
  [ -z "$2" ] || printf '"batch":"%s",' "$2"
  [ -z "${3:-}" ] || printf '"faults":"%s",' "$3"
  printf '"refused":"%s"}' "${4:-0}"
}

# taken ROWS BATCH [close]: prints the whole reply to an insert without refused lines
taken() { page '200 OK' $json "$(accepted "$1" "$2")" '' "${3:-}"; }

# labelled LABELS: prints _stream and _stream_id of a record for these labels
labelled() {
  printf '"_stream":"%s","_stream_id":"%s"' "${1//\"/\\\"}" "$(printf %s "$1" | sha256sum | head -c 32)"
}

# replies NAME BYTES WANTED: judges all that comes back for these bytes until the connection ends
replies() { judge "$1" "$(exchange "$http" "$2"; echo .)" "$3"$'\n.'; }

# refuses NAME BYTES STATUS FAULT: judges the reply to a malformed request, after which the connection ends
refuses() { replies "$1" "$2" "$(page "$3" "$text" "$4" '' close)"; }

# held NAME BATCHES: judges the reply to /status: this many batches, of which all or fewer are settled
held() {
  local name=$1 batches=$2 status settled
  status=$(exchange "$http" 'GET /status HTTP/1.1\r\nConnection: close\r\n\r\n'; echo .)
  settled=$(sed -n 's/.*"settled":"\([0-9]*\)".*/\1/p' <<< "$status")
  [ "${settled:-1}" -le "$batches" ] 2> /dev/null || settled="at most $batches"
  judge "$name" "$status" "$(page '200 OK' $json "{\"batches\":\"$batches\",\"settled\":\"$settled\"}" '' close)"$'\n.'
}

# comes_to NAME QUERY WANTED: judges the records of a query, and asks for up to 10 s until they are the wanted ones,
# since syslog has no replies to wait for
comes_to() {
  local got
  for _ in {1..100}; do
    got=$(ask "$2")
    [ "$got" = "$3" ] && break
    sleep 0.1
  done
  judge "$1" "$got" "$3"
}

by_bytes() {
  local health='GET /health HTTP/1.1\r\n' status='GET /status HTTP/1.1\r\nConnection: close\r\n\r\n'
  local insert='POST /insert/jsonline HTTP/1.1\r\n' chunked many
  chunked="${insert}Transfer-Encoding: chunked\r\n"
  replies "the first status" "$status" "$(page '200 OK' $json '{"batches":"0","settled":"0"}' '' close)"
  replies "health over HTTP/1.0" 'GET /health HTTP/1.0\r\n\r\n' "$(page '200 OK' "$text" OK '' close)"
  replies "chunks with an extension and a trailer" \
    "${chunked}Connection: close\r\n\r\n5;a=b\r\n{\"a\":\r\n4\r\n\"b\"}\r\n0\r\nX: y\r\n\r\n" "$(taken 1 1 close)"
  replies "two requests at once" "$health\r\n${health}Connection: close\r\n\r\n" \
    "$(page '200 OK' "$text" OK; page '200 OK' "$text" OK '' close)"
  judge "HEAD in bytes" "$(exchange "$http" 'HEAD /health HTTP/1.1\r\nConnection: close\r\n\r\n'; echo .)" \
    "$(bare GET close; echo .)"
  refuses "a request line without a version" 'GET /health\r\n\r\n' "$bad" BadHead
  refuses "a space before a colon" "${health}Host : x\r\n\r\n" "$bad" BadHead
  refuses "a Content-Length that is not a number" "${insert}Content-Length: 1x\r\n\r\n" "$bad" BadLength
  refuses "two lengths" "${insert}Content-Length: 5\r\nContent-Length: 6\r\n\r\n" "$bad" BadLength
  refuses "Content-Length beside Transfer-Encoding" "${chunked}Content-Length: 5\r\n\r\n" "$bad" BadLength
  refuses "a transfer coding around chunks" "${insert}Transfer-Encoding: gzip, chunked\r\n\r\n" "$bad" BadLength
  refuses "a chunk without a length" "$chunked\r\nx\r\n" "$bad" BadChunk
  refuses "more data than the chunk length says" "$chunked\r\n1\r\nabc\r\n" "$bad" BadChunk
  refuses "a content coding" "${insert}Content-Encoding: gzip\r\nContent-Length: 1\r\n\r\nx" \
    '415 Unsupported Media Type' Coding
  # up to the space after X: there are 25 bytes
  many=$(printf 'a%.0s' {1..16359})
  refuses "16,384 bytes of a header section without its end" "${health}X: $many" "$bad" HeadLarge
  many=$(printf 'X: y\\r\\n%.0s' {1..101})
  refuses "101 header lines" "$health$many\r\n" "$bad" HeadLarge
  refuses "a declared length above the limit" "${insert}Content-Length: 33554433\r\n\r\n" "$large" BodyLarge
  refuses "chunks above the limit" "$chunked\r\n1\r\na\r\n2000000\r\n" "$large" BodyLarge
  # twice as many clients as workers disconnect in the middle of a request
  for _ in {1..8}; do
    (exec 3<> "/dev/tcp/127.0.0.1/$http" && printf %b "${insert}Content-Length: 9\r\n\r\n{\"a\"" >&3)
  done
  held "after unfinished requests" 1
}

# curled ARGUMENTS..: runs curl
curled() { timeout 30 curl -q --noproxy '*' -s -m 20 "$@"; }

# curls NAME WANTED ARGUMENTS..: judges the whole reply that curl gets, with its header lines
curls() {
  local name=$1 wanted=$2
  shift 2
  judge "$name" "$(curled -i "$@"; echo .)" "$wanted"$'\n.'
}

# asks NAME RECORDS QUERY ARGUMENTS..: judges the reply to a query by curl
asks() { curls "$1" "$(page '200 OK' $records "$2")" "$select" --data-urlencode "query=$3" "${@:4}"; }

# is_refused NAME STATUS CONTENT ARGUMENTS..: judges the reply to a request that is refused
is_refused() { curls "$1" "$(page "$2" "$text" "$3")" "${@:4}"; }

by_curl() {
  has "curl" curl || return
  at=http://127.0.0.1:$http
  insert=$at/insert/jsonline select=$at/select/logsql/query
  inserts_by_curl
  queries_by_curl
  refusals_by_curl
  has "curl and jq" jq || return
  judge "curl and jq" "$(curled "$select" --data-urlencode 'query=status:404 host:web-2' | jq -r ._msg)" \
    $'GET /docs/guide HTTP/1.1\nGET /api/v1/orders HTTP/1.1\nGET /index.html HTTP/1.1'
}

inserts_by_curl() {
  local options='_stream_fields=host,env&_time_field=ts&_msg_field=log,text&ignore_fields=pid'
  curls "an insert" "$(taken 1 2)" "$insert?_stream_fields=app" \
    --data-binary '{"_msg":"started","app":"web","_time":"2026-11-27T10:00:00Z"}'
  curls "a file with a refused line" "$(page '200 OK' $json "$(accepted 39 3 '24 NotJson' 1)")" \
    "$insert" --data-binary "@$top/examples/access.jsonl"
  curls "lines without a row" "$(page '200 OK' $json "$(accepted 0 '' '1 NotObject, 2 Empty' 2)")" \
    "$insert" --data-binary $'x\n{}\n'
  echo '{"_msg":"from a pipe","part":"pipe"}' | curls "an upload from a pipe" "$(taken 1 4)" \
    "$insert" -X POST -H 'Expect:' -T -
  echo '{"_msg":"in chunks","part":"pipe"}' | curls "chunks from a pipe" "$(taken 1 5)" \
    "$insert" -H 'Transfer-Encoding: chunked' --data-binary @-
  curls "Expect: 100-continue" "$(taken 1 6)" "$insert" -H 'Expect: 100-continue' --data-binary '{"a":"b"}'
  curls "an insert over HTTP/1.0" "$(taken 1 7 close)" "$insert" -0 --data-binary '{"a":"b"}'
  curls "all arguments of an insert" "$(taken 1 8)" \
    "$insert?$options&extra_fields=env=test,part=all" --data-binary \
    '{"ts":"1714557600","text":"as arguments say","pid":7,"host":"a"}'
}

queries_by_curl() {
  local wanted
  wanted='{"_msg":"started",'$(labelled '{app="web"}')',"_time":"2026-11-27T10:00:00Z","app":"web"}'
  asks "a query by GET" "$wanted" '{app="web"} | limit 10' -G
  wanted='{"bytes":"217163","requests":"13","status":"200"}
{"bytes":"55244","requests":"3","status":"304"}
{"bytes":"152548","requests":"9","status":"404"}'
  asks "a query in a form" "$wanted" 'status:* | stats by (status) count() as requests, sum(bytes) as bytes'
  asks "a query that finds nothing" '' no_such_word
  asks "the rows of the uploads from pipes" $'{"_msg":"from a pipe"}\n{"_msg":"in chunks"}' 'part:pipe | fields _msg'
  wanted='{"_msg":"as arguments say",'$(labelled '{env="test",host="a"}')
  wanted+=',"_time":"2024-05-01T10:00:00Z","env":"test","host":"a","part":"all"}'
  asks "the row that all arguments make" "$wanted" part:all
  judge "two requests on a connection" "$(curled -w '%{num_connects} %{http_code}\n' \
    -o "$work/out" "$at/health" -o "$work/out" "$at/status")" $'1 200\n0 200'
  judge "HEAD by curl" "$(curled -I "$select"; echo .)" "$(bare 'GET, POST'; echo .)"
}

refusals_by_curl() {
  local argument many
  is_refused "no such path" '404 Not Found' 'no such path' "$at/"
  is_refused "an escape in a path" '404 Not Found' 'no such path' "$at/%73tatus"
  is_refused "a slash at the end of a path" '404 Not Found' 'no such path' "$at/status/"
  curls "GET of an insert" "$(page "$no_method" "$text" 'no such method' POST)" "$insert"
  curls "PUT of a query" "$(page "$no_method" "$text" 'no such method' 'GET, POST')" "$select" -X PUT
  curls "POST of the status" "$(page "$no_method" "$text" 'no such method' GET)" "$at/status" -d ''
  is_refused "no query" "$bad" 'BadArgument query' "$select?limit=1"
  for argument in limit start end offset; do
    is_refused "the argument $argument" "$bad" "BadArgument $argument" "$select?query=a&$argument=1"
  done
  is_refused "extra fields without =" "$bad" 'BadArgument extra_fields' "$insert?extra_fields=a=b,c" -d '{"a":"b"}'
  is_refused "extra fields without a name" "$bad" 'BadArgument extra_fields' "$insert?extra_fields==b" -d '{"a":"b"}'
  is_refused "an extra parenthesis" "$bad" 'Syntax at 3' "$select" --data-urlencode 'query=a b)'
  is_refused "an open quote" "$bad" 'OpenQuote at 0' "$select" --data-urlencode 'query="abc'
  is_refused "an empty query" "$bad" 'Syntax at 0' "$select?query="
  is_refused "an invalid regular expression" "$bad" 'RegexRefused number 1' \
    "$select" --data-urlencode 'query=~"a" | filter ~"("'
  curls "two numbers whose sum does not fit 64 bits" "$(taken 2 9)" "$insert" --data-binary \
    $'{"n":"9223372036854775807","part":"total"}\n{"n":"1","part":"total"}'
  is_refused "a sum that does not fit 64 bits" '422 Unprocessable Content' 'Overflow in total' \
    "$select" --data-urlencode 'query=part:total | stats sum(n) as total'
  is_refused "a number of math that does not fit 64 bits" '422 Unprocessable Content' 'Overflow in twice' \
    "$select" --data-urlencode 'query=part:total | math n * 2 as twice'
  is_refused "a pattern that cannot be read" "$bad" 'BadPattern at 12' "$select" --data-urlencode 'query=* | extract "id="'
  # 7,000 rows of 10,003 bytes: a, b, x and 10,000 bytes
  many=$(printf 'y%.0s' {1..10000})
  printf '{"a":"b"}\n%.0s' {1..7000} > "$work/heavy"
  is_refused "rows that weigh too much" "$large" 'Large 70021000' \
    "$insert?extra_fields=x=$many" --data-binary "@$work/heavy"
  judge "all batches are settled" "$(settles 20; echo $?)" 0
  curls "the status after all inserts" "$(page '200 OK' $json '{"batches":"9","settled":"9"}')" "$at/status"
}

# python TASK: runs a task of clients.py
python() { timeout 60 python3 "$work/clients.py" "$1" "$http" "$syslog" 2>&1; }

write_python() {
  cat > "$work/clients.py" << 'PYTHON'
import http.client
import socket
import sys
import time
import urllib.parse

task, port, syslog = sys.argv[1], int(sys.argv[2]), int(sys.argv[3] or 0)
select = "/select/logsql/query"


def connected():
    return http.client.HTTPConnection("127.0.0.1", port, timeout=20)


def said(connection, method, path, body=None, headers={}):
    connection.request(method, path, body, headers)
    reply = connection.getresponse()
    return reply.status, reply.read().decode(), reply.getheader("Connection")


def several():
    """Several requests on one connection, which stays open."""
    connection = connected()
    lines = '{"_msg":"one","part":"python"}\n{"_msg":"zwei ü","part":"python"}\n'
    print(*said(connection, "POST", "/insert/jsonline?_stream_fields=part", lines.encode())[:2], end="")
    first = connection.sock
    asked = urllib.parse.urlencode({"query": "part:python | sort by (_msg desc) | fields _msg"})
    form = {"Content-Type": "application/x-www-form-urlencoded"}
    print(*said(connection, "GET", select + "?" + asked)[:2], end="")
    print(*said(connection, "POST", select, asked, form)[:2], end="")
    print(*said(connection, "GET", "/nothing")[:2], end="")
    chunks = (b'{"_msg":"%d","part":"chunks"}\n' % number for number in range(1000))
    print(said(connection, "POST", "/insert/jsonline", chunks)[0])
    print("the same connection" if connection.sock is first else "another connection")


def large():
    """The client sends the whole of a body that is refused, and then reads the reply."""
    print(*said(connected(), "POST", "/insert/jsonline", b"x" * 33554433))


def slow():
    """A byte a second."""
    with socket.create_connection(("127.0.0.1", port), 20) as stream:
        for piece in ["GET "] + list("/health HTTP/1.0\n\n"):
            stream.sendall(piece.encode())
            time.sleep(1)
        reply = b""
        while piece := stream.recv(4096):
            reply += piece
    print(reply.decode(), end="")


def unread():
    """Three clients do not read a large reply, and disconnect; another client is served meanwhile."""
    line = b'{"_msg":"' + b"y" * 262000 + b'","part":"large"}\n'
    print(said(connected(), "POST", "/insert/jsonline", line * 100)[0])
    idle = []
    for _ in range(3):
        stream = socket.socket()
        stream.setsockopt(socket.SOL_SOCKET, socket.SO_RCVBUF, 4096)
        stream.settimeout(20)
        stream.connect(("127.0.0.1", port))
        stream.sendall(f"GET {select}?query=part:large HTTP/1.1\r\n\r\n".encode())
        idle.append(stream)
    time.sleep(1)
    print(said(connected(), "GET", "/health")[0])
    for stream in idle:
        stream.close()
    # all four workers at once
    beside = [connected() for _ in range(4)]
    print([said(connection, "GET", "/health")[0] for connection in beside])


def onward():
    """Inserts more batches than may wait, and says how many of them were accepted at the first try."""
    inserted, refused = 0, 0
    connection = connected()
    while inserted < 4400:
        status, text, says = said(connection, "POST", "/insert/jsonline", b'{"_msg":"onward"}')
        inserted += status == 200
        if status == 503:
            refused += 1
            time.sleep(0.1)
        elif status != 200:
            sys.exit(f"{status} {text}")
        if says:
            connection = connected()
    print(inserted, "inserted")
    print(f"{refused} refused", file=sys.stderr)


def number():
    """Inserts numbered rows until the server is gone, and keeps the last settled number that it said."""
    number, settled = int(sys.argv[4]), 0
    connection = connected()
    try:
        while True:
            line = b'{"_msg":"numbered","n":"%d"}' % (number + 1)
            status, text, says = said(connection, "POST", "/insert/jsonline", line)
            number += status == 200
            if number % 20 == 0:
                status, text, says_too = said(connection, "GET", "/status")
                settled = int(text.split('"settled":"')[1].split('"')[0])
                says = says or says_too
            if says:
                connection = connected()
    except (OSError, http.client.HTTPException):
        print(number, settled)


def full():
    """Fills the log with batches, 1,000 on each connection, and then inserts more."""
    accepted, ends = 0, []
    while accepted < 4096:
        connection = connected()
        for number in range(1, 1001):
            status, text, says = said(connection, "POST", "/insert/jsonline", b'{"_msg":"filled"}')
            accepted += status == 200
            if says or status != 200 or accepted == 4096:
                break
        ends.append((number, status, says))
    print(accepted, ends)
    connection = connected()
    print(*said(connection, "POST", "/insert/jsonline", b'{"_msg":"more"}')[:2], end="")
    print(*said(connection, "POST", "/insert/jsonline", b"x\n")[:2], end="")
    print(*said(connection, "GET", select + "?query=filled%7Cstats+count()+as+n")[:2], end="")
    with socket.create_connection(("127.0.0.1", syslog), 20) as stream:
        try:
            stream.sendall(b"<13>1 - a b - - - one message\n")
            print("syslog ended" if stream.recv(1) == b"" else "syslog said something")
        except ConnectionResetError:
            print("syslog ended")


globals()[task]()
PYTHON
}

by_python() {
  has "python3" python3 || return
  judge "python3: several requests on a connection" "$(python several | sed 's/"batch":"[0-9]*"/"batch":"N"/')" \
    "200 $(accepted 2 N)
200 {\"_msg\":\"zwei ü\"}
{\"_msg\":\"one\"}
200 {\"_msg\":\"zwei ü\"}
{\"_msg\":\"one\"}
404 no such path
200
the same connection"
  judge "python3: the reply to a large body" "$(python large)" $'413 BodyLarge\n close'
  judge "python3: a large reply that clients do not read" "$(python unread)" $'200\n200\n[200, 200, 200, 200]'
}

# start_slow_client: starts a client in the background that sends a byte a second
start_slow_client() {
  command -v python3 > /dev/null || return
  timeout 60 python3 "$work/clients.py" slow "$http" "$syslog" > "$work/slow" 2>&1 &
  slow=$!
  senders+=("$slow")
}

judge_slow_client() {
  has "a byte a second" python3 || return
  wait "$slow"
  judge "a byte a second" "$(cat "$work/slow"; echo .)" "$(page '200 OK' "$text" OK '' close)"$'\n.'
}

by_syslog_bytes() {
  local message wanted
  # the third example of RFC 5424, section 6.5, in a counted frame, and then a message on a line
  message='<165>1 2003-10-11T22:14:15.003Z mymachine.example.com evntslog - ID47 '
  message+='[exampleSDID@32473 iut="3" eventSource="Application" eventID="1011"] An application event log entry...'
  (exec 3<> "/dev/tcp/127.0.0.1/$syslog" &&
    printf '%s %s%s\r\n' ${#message} "$message" '<13>1 2003-10-11T22:14:16Z - liner 7 - - one\two' >&3)
  wanted='{"_msg":"An application event log entry...",'
  wanted+=$(labelled '{app_name="evntslog",hostname="mymachine.example.com"}')
  wanted+=',"_time":"2003-10-11T22:14:15.003Z","app_name":"evntslog","exampleSDID@32473.eventID":"1011",'
  wanted+='"exampleSDID@32473.eventSource":"Application","exampleSDID@32473.iut":"3","facility":"20",'
  wanted+='"format":"rfc5424","hostname":"mymachine.example.com","msg_id":"ID47","priority":"165","severity":"5"}'
  comes_to "a message in a counted frame" 'app_name:="evntslog"' "$wanted"
  comes_to "a message on a line" 'app_name:="liner" | fields _msg, _time, proc_id, priority' \
    '{"_msg":"one\\two","_time":"2003-10-11T22:14:16Z","priority":"13","proc_id":"7"}'
}

by_logger() {
  has "logger" logger || return
  local flag
  for flag in --rfc5424 --tcp --octet-count --sd-id; do
    logger --help 2>&1 | grep -q -e "$flag" || { skip "logger" "it has no $flag"; return; }
  done
  timeout 20 logger --rfc5424 --tcp --octet-count -n 127.0.0.1 -P "$syslog" -t from-logger --id=42 \
    -p local0.warning --msgid M1 --sd-id 'made@32473' --sd-param 'by="a test"' 'counted by logger'
  comes_to "logger, in a counted frame" 'app_name:="from-logger" counted | fields _msg, app_name, hostname, proc_id' \
    "{\"_msg\":\"counted by logger\",\"app_name\":\"from-logger\",\"hostname\":\"$(uname -n)\",\"proc_id\":\"42\"}"
  comes_to "logger, found by its hostname" "hostname:=\"$(uname -n)\" counted | fields priority, msg_id, \"made@32473.by\"" \
    '{"made@32473.by":"a test","msg_id":"M1","priority":"132"}'
  timeout 20 logger --rfc5424 --tcp -n 127.0.0.1 -P "$syslog" -t from-logger 'a line of logger'
  comes_to "logger, on a line" 'app_name:="from-logger" line | fields _msg' '{"_msg":"a line of logger"}'
}

# sends NAME SENDER..: starts a daemon and judges the 100 lines that it sends
sends() {
  local name=$1 sender before=$failed
  shift
  "$@" > "$work/log" 2>&1 < /dev/null &
  sender=$!
  senders+=("$sender")
  comes_to "$name, 100 lines" "app_name:=\"from-$name\" | stats count() as n, count_uniq(_msg) as different" \
    '{"different":"100","n":"100"}'
  [ "$failed" = "$before" ] || head -n 5 "$work/log"
}

# quiet: stops the daemon that was started last
quiet() {
  kill "${senders[-1]}" 2> /dev/null
  wait "${senders[-1]}" 2> /dev/null
}

by_rsyslog() {
  has "rsyslogd" rsyslogd || return
  local folder=$work/rsyslog forward header
  forward="type=\"omfwd\" target=\"127.0.0.1\" port=\"$syslog\" protocol=\"tcp\" TCP_Framing=\"octet-counted\""
  header='<%PRI%>1 %TIMESTAMP:::date-rfc3339% %HOSTNAME% %APP-NAME% %PROCID% %MSGID% %STRUCTURED-DATA%'
  mkdir "$folder"
  seq -f 'line %g of rsyslog' 100 | tee "$folder/own" > "$folder/documented"
  cat > "$folder/conf" << CONF
global(workDirectory="$folder")
module(load="imfile")
template(name="rfc5424" type="string" string="$header %msg:::drop-last-lf%")
ruleset(name="own") { action($forward template="RSYSLOG_SyslogProtocol23Format") }
ruleset(name="documented") { action($forward template="rfc5424") }
input(type="imfile" File="$folder/own" Tag="from-rsyslogd" Facility="local0" Severity="notice" ruleset="own")
input(type="imfile" File="$folder/documented" Tag="documented" ruleset="documented")
CONF
  sends rsyslogd timeout 60 rsyslogd -n -i "$folder/pid" -f "$folder/conf"
  # rsyslog's own template ends with a line feed; drop-last-lf leaves it out
  comes_to "rsyslogd, its own template" 'app_name:="from-rsyslogd" "line 7 of" | fields _msg, facility, severity' \
    '{"_msg":"line 7 of rsyslog\n","facility":"16","severity":"5"}'
  comes_to "rsyslogd, a template with drop-last-lf" 'app_name:="documented" "line 7 of" | fields _msg, hostname' \
    "{\"_msg\":\"line 7 of rsyslog\",\"hostname\":\"$(uname -n)\"}"
  quiet
}

by_syslog_ng() {
  has "syslog-ng" syslog-ng || return
  local folder=$work/syslog-ng version
  version=$(timeout 20 syslog-ng --version 2> /dev/null | sed -n 's/^Config version: //p')
  mkdir "$folder"
  seq -f 'line %g of syslog-ng' 100 | tee "$folder/counted" > "$folder/lines"
  cat > "$folder/conf" << CONF
@version: ${version:-3.35}
source s_counted { file("$folder/counted" flags(no-parse) program-override("from-syslog-ng") follow-freq(1)); };
source s_lines { file("$folder/lines" flags(no-parse) program-override("on-lines") follow-freq(1)); };
destination d_counted { syslog("127.0.0.1" transport("tcp") port($syslog)); };
destination d_lines { network("127.0.0.1" port($syslog) flags(syslog-protocol) persist-name("lines")); };
log { source(s_counted); destination(d_counted); };
log { source(s_lines); destination(d_lines); };
CONF
  sends syslog-ng timeout 60 syslog-ng -F --no-caps -f "$folder/conf" -R "$folder/persist" -p "$folder/pid" \
    -c "$folder/control"
  # both destinations end a message with a line feed, which a counted frame keeps in the message
  comes_to "syslog-ng, in counted frames" 'app_name:="from-syslog-ng" "line 7 of" | fields _msg, hostname' \
    "{\"_msg\":\"line 7 of syslog-ng\\n\",\"hostname\":\"$(uname -n)\"}"
  comes_to "syslog-ng, on lines" 'app_name:="on-lines" "line 7 of" | fields _msg, hostname' \
    "{\"_msg\":\"line 7 of syslog-ng\",\"hostname\":\"$(uname -n)\"}"
  quiet
}

# 64 connections to 4 workers post lines for 3 seconds. When wrk ends, each connection may have one request that the
# server accepted and wrk did not count.
by_wrk() {
  has "wrk" wrk || return
  start_server 4 || { judge "a server for wrk" none "one that answers"; return; }
  cat > "$work/wrk.lua" << 'LUA'
local threads = {}
ok, full, other = 0, 0, 0
function setup(thread) table.insert(threads, thread) end
function init(args)
  wrk.method, wrk.body = "POST", '{"_msg":"from wrk"}'
end
function response(status)
  if status == 200 then ok = ok + 1 elseif status == 503 then full = full + 1 else other = other + 1 end
end
function done(summary)
  local sums = { ok = 0, full = 0, other = 0 }
  for _, thread in ipairs(threads) do
    for name in pairs(sums) do sums[name] = sums[name] + thread:get(name) end
  end
  local e = summary.errors
  print(string.format("counted %d %d", sums.ok, sums.full))
  print(string.format("errors %d %d %d, others %d", e.connect, e.read, e.write, sums.other))
end
LUA
  timeout 30 wrk -t 2 -c 64 -d 3s -s "$work/wrk.lua" "http://127.0.0.1:$http/insert/jsonline" > "$work/out" 2>&1
  judge "wrk: no socket errors except timeouts" "$(grep '^errors' "$work/out" || cat "$work/out")" \
    "errors 0 0 0, others 0"
  judge_rows_of_wrk
  stop_server
}

judge_rows_of_wrk() {
  local ok=0 full=0 rows='' before=none
  read -r _ ok full <<< "$(grep '^counted' "$work/out" || echo counted 0 0)"
  # connections that still wait are served before this query, which is repeated until the count stays the same
  for _ in {1..50}; do
    rows=$(ask '"from wrk" | stats count() as n' | sed 's/[^0-9]//g')
    [ "$rows" = "$before" ] && break
    before=$rows
    sleep 0.3
  done
  rows=${rows:-0}
  echo "wrk: $ok accepted, $full refused, $rows rows"
  judge "wrk: every accepted line is a row, and at most 64 more are, whose replies wrk did not read" \
    "$((ok > 0 && rows >= ok && rows <= ok + 64))" 1
  judge "wrk: 503 only when 4,096 batches may wait" "$((full == 0 || rows >= 4096))" 1
  judge "wrk: all batches are settled" "$(settles 60; echo $?)" 0
}

# more batches than may wait at a time
by_going_on() {
  has "4,400 batches" python3 || return
  start_server 2 || { judge "a server to go on" none "one that answers"; return; }
  judge "4,400 batches, one after another" "$(timeout 120 python3 "$work/clients.py" onward "$http" '' 2> /dev/null)" \
    "4400 inserted"
  judge "4,400 batches: all are settled" "$(settles 60; echo $?) $(numbers)" "0 4400 4400"
  judge "4,400 batches: all rows" "$(ask 'onward | stats count() as n')" '{"n":"4400"}'
  stop_server
}

# The directory is moved away, so the keeper cannot write there and halts. What is inserted then stays in memory.
by_filling() {
  has "4,096 batches" python3 || return
  start_server 2 syslog || { judge "a server to fill" none "one that answers"; return; }
  mv "$directory" "$work/moved"
  judge "4,096 batches that wait, and one more" "$(python full)" \
    "4096 [(1000, 200, 'close'), (1000, 200, 'close'), (1000, 200, 'close'), (1000, 200, 'close'), (96, 200, None)]
503 Full 4096
200 $(accepted 0 '' '1 NotObject' 1)
200 {\"n\":\"4096\"}
syslog ended"
  judge "after a device fault nothing is settled" "$(numbers)" "4096 0"
  judge "the device fault is said once" "$(tail -n +2 "$work/server_err")" \
    "$directory/2: No such file or directory (os error 2)"
  rm -rf "$work/moved"
  stop_server
}

# by_device_fault: the directory is moved away after some batches were settled. Those that came later are copied out as
# docs/OPERATIONS.md says, and inserted again over a copy of the directory
by_device_fault() {
  has "a device fault" curl || return
  local word rest
  start_server 2 || { judge "a server whose directory goes" none "one that answers"; return; }
  curled "http://127.0.0.1:$http/insert/jsonline" --data-binary $'{"_msg":"one"}\n{"_msg":"two"}' > "$work/out"
  judge "before a device fault all batches are settled" "$(settles 20; echo $?)" 0
  mv "$directory" "$work/moved"
  for word in three four five; do
    curled "http://127.0.0.1:$http/insert/jsonline" --data-binary "{\"_msg\":\"$word\"}" > "$work/out"
  done
  for _ in {1..100}; do
    [ "$(wc -l < "$work/server_err")" -gt 1 ] && break
    sleep 0.1
  done
  judge "after a device fault inserts go on, and settled stands" "$(numbers)" "4 1"
  # the server still has the directory, but not a copy of it
  cp -a "$work/moved" "$work/copy"
  rest=$("$program" query --dir "$work/copy" '* | stats count() as n' | sed 's/[^0-9]//g')
  rest=$(ask "* | offset $rest | delete _stream, _stream_id")
  stop_server
  start_server 2 '' "$work/copy" || { judge "a server over the copy" none "one that answers"; return; }
  curled "http://127.0.0.1:$http/insert/jsonline" --data-binary "$rest" > "$work/out"
  judge "after a restart the rest is inserted" "$(ask '* | fields _msg')" \
    "$(printf '{"_msg":"%s"}\n' one two three four five)"
  stop_server
  rm -rf "$work/moved" "$work/copy"
}

# by_killing: kills a server three times, and starts it again over its directory, where it finds the first of the
# batches, with all that were settled
by_killing() {
  has "a server that is killed" python3 || return
  local round began=0 found number settled
  for round in 1 2 3; do
    start_server 2 '' "$work/killed" || { judge "a server to kill" none "one that answers"; return; }
    timeout 60 python3 "$work/clients.py" number "$http" '' "$began" > "$work/numbered" 2>&1 &
    sender=$!
    senders+=("$sender")
    sleep "0.$((RANDOM % 9))"
    sleep "$round"
    stop_server KILL
    wait "$sender"
    read -r number settled < "$work/numbered"
    start_server 2 '' "$work/killed" || { judge "a killed server, again" none "one that answers"; return; }
    read -r found _ <<< "$(numbers)"
    echo "killed: $settled of $number batches were seen to be settled, and $found are found"
    # a batch may have been inserted whose reply never came
    judge "a killed server: it finds all settled batches, and none that was not inserted" \
      "$((settled <= found && began <= found && found <= number + 1))" 1
    judge "a killed server: it finds the first batches" \
      "$(ask 'numbered | stats count_uniq(n) as n, min(n) as least, max(n) as most')" \
      "{\"least\":\"1\",\"most\":\"$found\",\"n\":\"$found\"}"
    began=$found
    stop_server
  done
}

# ends NAME STATUS ERROR WORDS..: judges a run that ends by itself: its status, and that it writes only this error
ends() {
  local name=$1 status=$2 error=$3 got
  shift 3
  timeout 20 "$program" "$@" > "$work/out" 2> "$work/err" < /dev/null
  got=$?
  judge "$name" "$got $(cat "$work/err" "$work/out"; echo .)" "$status $error"$'\n.'
}

by_words() {
  local usage='usage: pipe, load, query, trial or serve' address=127.0.0.1:$http
  local taken="cannot listen on $address: Address already in use (os error 98)"
  local serve=(serve --dir "$work/words")
  ends "serve without an address" 2 "$usage" "${serve[@]}"
  ends "serve without a directory" 2 "$usage" serve --http "$address"
  ends "a directory twice" 2 "$usage" "${serve[@]}" --dir "$work/words" --http "$address"
  ends "0 workers" 2 "$usage" "${serve[@]}" --http "$address" --workers 0
  ends "65 workers at one address" 2 "$usage" "${serve[@]}" --http "$address" --workers 65
  ends "33 workers at each of two addresses" 2 "$usage" "${serve[@]}" --http "$address" --syslog "$address" --workers 33
  ends "an address twice" 2 "$usage" "${serve[@]}" --http "$address" --http "$address"
  judge "a command line that is not valid makes no directory" "$(ls -d "$work/words" 2> /dev/null)" ''
  ends "a port in use" 7 "$taken"$'\n'"door fault" "${serve[@]}" --http "$address"
  ends "the same port in use for both addresses" 7 "$taken"$'\n'"$taken"$'\n'"door fault" \
    "${serve[@]}" --http "$address" --syslog "$address"
  ends "an address without a port" 7 "cannot listen on 127.0.0.1: invalid socket address"$'\n'"door fault" \
    "${serve[@]}" --http 127.0.0.1
}

write_python
if start_server 4 syslog; then
  by_bytes
  by_curl
  start_slow_client
  by_syslog_bytes
  by_logger
  by_rsyslog
  by_syslog_ng
  by_python
  by_words
  judge_slow_client
  stop_server
  judge "a server that SIGTERM stops" "$? $(cat "$work/server_out" "$work/server_err"; echo .)" \
    "143 http on 127.0.0.1:$http (workers: 4), syslog on 127.0.0.1:$syslog (workers: 4)"$'\n.'
  by_wrk
  by_going_on
  by_filling
  by_device_fault
  by_killing
else
  judge "a server" "none: $(head -c 300 "$work/server_err")" "one that answers"
fi

echo "$passed passed, $failed failed, $skipped skipped"
[ "$failed" = 0 ]
