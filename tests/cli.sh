#!/usr/bin/env bash
# Runs the built program as a user's shell does, and compares its output, its error text and its status.
# usage: tests/cli.sh     (the environment variable DUVONKA is the path of another build)
# Its last line is 'N passed, M failed'.
set -u
export LC_ALL=C.UTF-8
top=$(cd "$(dirname "$0")/.." && pwd)
program=${DUVONKA:-$top/crates/duvonka/out/duvonka}
# fail_all WHY: nothing can be tested
fail_all() {
  echo "FAILED all: $1"
  echo "0 passed, 1 failed"
  exit 1
}

for tool in mktemp cmp head yes; do
  command -v "$tool" > /dev/null || fail_all "there is no $tool"
done
[ -x "$program" ] || fail_all "the program is not built: run ./duvonka --build, or set DUVONKA to the path of one"
work=$(mktemp -d) || exit 1
# shellcheck source=tests/serving.sh
. "$top/tests/serving.sh"
trap 'stop_servers; rm -rf "$work"' EXIT
trap 'exit 1' INT TERM
passed=0 failed=0

# judge NAME STATUS WANTED_STATUS: compares the status, and the files out and err with wanted_out and wanted_err
judge() {
  local why=
  [ "$2" = "$3" ] || why="status $2, not $3"
  cmp -s "$work/out" "$work/wanted_out" || why="$why; the output differs: $(head -c 300 "$work/out")"
  cmp -s "$work/err" "$work/wanted_err" || why="$why; the error text differs: $(head -c 300 "$work/err")"
  if [ -z "$why" ]; then
    passed=$((passed + 1))
  else
    failed=$((failed + 1))
    echo "FAILED $1: $why"
  fi
}

# wants OUT ERR: sets the output and the error text that the next judge expects
wants() {
  printf '%s' "$1" > "$work/wanted_out"
  printf '%s' "$2" > "$work/wanted_err"
}

# without_time FILE: replaces each printed timestamp by NOW, since it is the time of arrival
without_time() {
  sed -i 's/"_time":"[0-9]\{4\}-[0-9][0-9]-[0-9][0-9]T[0-9:.]*Z"/"_time":"NOW"/' "$1"
}

stream='"_stream":"{}","_stream_id":"44136fa355b3678a1146ad16f7e8649e","_time":"NOW"'
usage=$'usage: pipe, load, query, trial or serve\n'
three=$'{"_msg":"an error: x"}\n{"_msg":"all fine"}\n{"_msg":"errors"}\n'
first="{\"_msg\":\"an error: x\",$stream}"$'\n'

printf '%s' "$three" > "$work/three"

"$program" pipe error < "$work/three" > "$work/out" 2> "$work/err"
status=$?; without_time "$work/out"; wants "$first" ""
judge "from a file" $status 0

cat "$work/three" | "$program" pipe error > "$work/out" 2> "$work/err"
status=$?; without_time "$work/out"; wants "$first" ""
judge "from a pipe" $status 0

(printf '%s' '{"_msg":"an err'; sleep 0.2; printf '%s' 'or: x"}') | "$program" pipe error > "$work/out" 2> "$work/err"
status=$?; without_time "$work/out"; wants "$first" ""
judge "from a slow pipe, with no line feed at the end" $status 0

printf '{"_msg":"an error: x"}\nx\n' | "$program" pipe error > "$work/out" 2> "$work/err"
status=$?; without_time "$work/out"; wants "$first" $'line 2: NotObject\n'
judge "a refused line is reported" $status 0

"$program" pipe '*' < /dev/null > "$work/out" 2> "$work/err"
status=$?; wants "" ""
judge "an empty input" $status 0

"$program" pipe error < "$top/examples/access.jsonl" > "$work/out" 2> "$work/err"
status=$?
grep -o '"_msg":"[^"]*"' "$work/out" > "$work/messages"; mv "$work/messages" "$work/out"
wants $'"_msg":"upstream error: connection reset by peer while reading response header"\n"_msg":"TLS handshake error: no shared cipher"\n"_msg":"请求失败 error 504"\n"_msg":"error"\n' $'line 24: NotJson\n'
judge "the example in the repository" $status 0

# real logs: a JSON access log of nginx with its last line cut off, and the nested log of an application
fields() { sed 's/"_stream":.*"_time"/"_time"/' "$work/out" > "$work/fields"; mv "$work/fields" "$work/out"; }
"$program" pipe orders < "$top/examples/nginx.jsonl" > "$work/out" 2> "$work/err"
status=$?; fields
wants $'{"_msg":"GET /api/v1/orders/81 HTTP/1.1","_time":"2026-11-27T08:14:03Z","body_bytes_sent":"157","http_user_agent":"Go-http-client/1.1","remote_addr":"203.0.113.19","request_time":"3.001","status":"502","upstream_response_time":"3.000, 0.001"}\n' $'line 6: NotJson\n'
judge "an access log of nginx" $status 0

"$program" pipe error < "$top/examples/orders.jsonl" > "$work/out" 2> "$work/err"
status=$?; fields
wants $'{"_msg":"payment error: card declined","_time":"2026-11-27T08:14:03.002Z","error.code":"card_declined","error.retryable":"false","level":"error","order.customer.id":"c-1042","order.customer.tier":"gold","order.id":"81","order.total":"49.90","trace.id":"4bf92f3577b34da6a3ce929d0e0e4736","trace.sampled":"true"}\n' $'line 5: BadTime\n'
judge "the nested log of an application" $status 0

"$program" pipe 'a b)' < "$work/three" > "$work/out" 2> "$work/err"
status=$?; wants "" $'query: Syntax at 3\n'
judge "an extra parenthesis" $status 1

"$program" pipe 'fine or error' < "$work/three" > "$work/out" 2> "$work/err"
status=$?; without_time "$work/out"; fields
wants $'{"_msg":"an error: x","_time":"NOW"}\n{"_msg":"all fine","_time":"NOW"}\n' ""
judge "one of two words" $status 0

"$program" pipe 'status:* | stats by (status) count() as requests, sum(bytes) as bytes' < "$top/examples/access.jsonl" > "$work/out" 2> "$work/err"
status=$?
wants $'{"bytes":"217163","requests":"13","status":"200"}\n{"bytes":"55244","requests":"3","status":"304"}\n{"bytes":"152548","requests":"9","status":"404"}\n' $'line 24: NotJson\n'
judge "requests and bytes by status" $status 0

"$program" pipe 'status:404 | top 2 by (host)' < "$top/examples/access.jsonl" > "$work/out" 2> "$work/err"
status=$?; wants $'{"hits":"4","host":"web-3"}\n{"hits":"3","host":"web-2"}\n' $'line 24: NotJson\n'
judge "the servers with most 404 replies" $status 0

printf '{"n":"9223372036854775807"}\n{"n":"1"}\n' | "$program" pipe '* | stats sum(n) as total' > "$work/out" 2> "$work/err"
status=$?; wants "" $'query: Overflow in total\n'
judge "a sum that does not fit 64 bits" $status 1

printf '{"n":"9223372036854775807"}\n' | "$program" pipe '* | math n + 1 as total' > "$work/out" 2> "$work/err"
status=$?; wants "" $'query: Overflow in total\n'
judge "a number of math that does not fit 64 bits" $status 1

"$program" pipe '* | extract "GET <path> HTTP" | top 2 by (path)' < "$top/examples/access.jsonl" > "$work/out" 2> "$work/err"
status=$?; wants $'{"hits":"4","path":"/index.html"}\n{"hits":"2","path":"/static/site.css"}\n' $'line 24: NotJson\n'
judge "the paths that were asked for most" $status 0

"$program" pipe '* | stats sum(bytes) as sum, count(bytes) as n | math sum div n as mean' < "$top/examples/access.jsonl" > "$work/out" 2> "$work/err"
status=$?; wants $'{"mean":"16998","n":"25","sum":"424955"}\n' $'line 24: NotJson\n'
judge "the mean of bytes" $status 0

"$program" pipe 'a | extract "<a><b>"' < "$work/three" > "$work/out" 2> "$work/err"
status=$?; wants "" $'query: BadPattern at 12\n'
judge "a pattern that cannot be read" $status 1

"$program" pipe 'a | filter ~"("' < "$work/three" > "$work/out" 2> "$work/err"
status=$?; wants "" $'query: RegexRefused number 0\n'
judge "an invalid regular expression" $status 1

"$program" < "$work/three" > "$work/out" 2> "$work/err"
status=$?; wants "" "$usage"
judge "no command" $status 2

"$program" pipe < "$work/three" > "$work/out" 2> "$work/err"
status=$?; wants "" "$usage"
judge "no query" $status 2

"$program" pipe error more < "$work/three" > "$work/out" 2> "$work/err"
status=$?; wants "" "$usage"
judge "an extra argument" $status 2

"$program" pipe $'\xff' < "$work/three" > "$work/out" 2> "$work/err"
status=$?; wants "" "$usage"
judge "an argument that is not UTF-8" $status 2

"$program" pipe error < "$work" > "$work/out" 2> "$work/err"
status=$?; wants "" $'read fault\n'
judge "a folder as input" $status 3

if [ -c /dev/full ]; then
  "$program" pipe error < "$work/three" > /dev/full 2> "$work/err"
  status=$?; : > "$work/out"; wants "" ""
  judge "a full device as output" $status 4
fi

# the reader of the pipe ends before the answer is written
{ sleep 0.3; "$program" pipe error < "$work/three" 2> "$work/err"; echo $? > "$work/status"; } | true
: > "$work/out"; wants "" ""
judge "a closed pipe as output" "$(cat "$work/status")" 4

# lines at their limits, and with argument 1 just above them: a line of 1,048,576 bytes; a name of 128 bytes; 1,000
# fields; names and values of 262,144 bytes; a blank line above the limit of a line, which is ignored; 64 open brackets
many() { head -c "$2" /dev/zero | tr '\0' "$1"; }
numbered() { seq -f ',"%g":"x"' 2 "$1" | tr -d '\n'; }
limits() { # EXTRA: is added to each size
  printf '%s{"a":"b"}\n' "$(many ' ' $((1048567 + $1)))"
  printf '{"%s":"v"}\n' "$(many n $((128 + $1)))"
  printf '{"1":"x"%s}\n' "$(numbered $((1000 + $1)))"
  printf '{"a":"%s"}\n' "$(many v $((262143 + $1)))"
  printf '%s\n' "$(many ' ' 1048577)"
  printf '{"a":%.0s' $(seq $((64 + $1))); printf '"b"'; printf '}%.0s' $(seq $((64 + $1))); echo
}

limits 0 | "$program" pipe zebra > "$work/out" 2> "$work/err"
status=$?; wants "" ""
judge "lines at their limits" $status 0

limits 1 | "$program" pipe zebra > "$work/out" 2> "$work/err"
status=$?; wants "" $'line 1: LineLong\nline 2: NameLong\nline 3: ManyFields\nline 4: RowLarge\nline 6: TooDeep\n'
judge "lines above their limits" $status 0

# 2,500 lines are three groups of at most 1,000
seq -f '{"_msg":"error","n":"%g"}' 2500 | "$program" pipe error > "$work/out" 2> "$work/err"
status=$?
sed 's/.*"n":"\([0-9]*\)"}/\1/' "$work/out" > "$work/numbers"; mv "$work/numbers" "$work/out"
seq 2500 > "$work/wanted_out"; : > "$work/wanted_err"
judge "2,500 lines in their order" $status 0

# each group has a refused line, and the third group has too many bytes for a batch
{ echo x; seq -f '{"n":"%g"}' 999; seq -f '{"n":"%g"}' 999; echo y; echo z
  value=$(many v 262143); for _ in $(seq 257); do printf '{"a":"%s"}\n' "$value"; done; } > "$work/heavy"
"$program" pipe error < "$work/heavy" > "$work/out" 2> "$work/err"
status=$?; wants "" $'line 1: NotObject\nline 2000: NotObject\nlarge 67371008\n'
judge "a group with too many bytes for a batch" $status 8

# 4,096 groups with a row, and groups without a row before and after them
group() { echo '{"a":"b"}'; yes '' | head -n 999; }
one_group=$(group; echo .); one_group=${one_group%.}
{ yes '' | head -n 1000; for _ in $(seq 4096); do printf '%s' "$one_group"; done; yes '' | head -n 3000; } > "$work/many"
"$program" pipe error < "$work/many" > "$work/out" 2> "$work/err"
status=$?; wants "" ""
judge "4,096 batches" $status 0

{ cat "$work/many"; echo x; echo '{"a":"b"}'; } | "$program" pipe error > "$work/out" 2> "$work/err"
status=$?; wants "" $'full 4096\n'
judge "4,097 batches" $status 8

# the group that is one too many is read beside the one after it, which says nothing
{ cat "$work/many"; echo x; echo '{"a":"b"}'; yes '' | head -n 998; echo y; } \
  | "$program" pipe error > "$work/out" 2> "$work/err"
status=$?; wants "" $'full 4096\n'
judge "4,097 batches, and a group after them" $status 8

# Groups are read in windows of one group, two, four and eight, and a window with 16 MiB takes no further group. So the
# first four windows here are group 1, groups 2 and 3, group 4 (17 MB), and what comes after it.
# named LINE: waits until this line is named as refused
named() {
  for _ in $(seq 400); do
    grep -q "^line $1: NotObject\$" "$work/err" && return 0
    sleep 0.05
  done
  echo "line $1 is not named" >> "$work/err"
}
rows() { yes "$1" | head -n 999; }
mkfifo "$work/slow"
"$program" pipe 'x | limit 0' < "$work/slow" > "$work/out" 2> "$work/err" &
slow=$!
exec 3> "$work/slow"
{ echo x; rows '{"a":"b"}'; } >&3; named 1
{ echo x; rows '{"a":"b"}'; echo x; rows '{"a":"b"}'; } >&3; named 1001; named 2001
{ echo x; rows "{\"a\":\"$(many v 17000)\"}"; } >&3; named 3001
{ echo x; rows '{"a":"b"}'; rows '{"a":"b"}'; echo x; echo x; } >&3
exec 3>&-
wait $slow; status=$?
wants "" "$(printf 'line %s: NotObject\n' 1 1001 2001 3001 4001 6000 6001)"$'\n'
judge "refused lines of a source that is slow" $status 0

# ---- a directory

logs=$work/logs

# runs NAME STATUS OUT ERR WORDS..: runs the program without input, and judges it
runs() {
  local name=$1 status=$2 got
  wants "$3" "$4"
  shift 4
  timeout 60 "$program" "$@" < /dev/null > "$work/out" 2> "$work/err"
  got=$?
  # the port that a server was given
  sed -i 's/127\.0\.0\.1:[0-9]*/ADDRESS/g' "$work/err"
  judge "$name" "$got" "$status"
}

# loads NAME STATUS OUT ERR WORDS..: loads the standard input, and judges it
loads() {
  local name=$1 status=$2 got
  wants "$3" "$4"
  shift 4
  timeout 60 "$program" load "$@" > "$work/out" 2> "$work/err"
  got=$?
  judge "$name" "$got" "$status"
}

# query NAME STATUS OUT ERR DIRECTORY QUERY: asks over a directory, and judges the answer
query() { runs "$1" "$2" "$3" "$4" query --dir "$5" -- "$6"; }

# serve NAME STATUS ERR DIRECTORY: starts a server over a directory that it cannot serve, and judges it
serve() {
  runs "$1" "$2" '' "http on ADDRESS (workers: 1)"$'\n'"$3" serve --dir "$4" --http 127.0.0.1:0 --workers 1
}

# insert LINES: inserts lines by the server that was started last
insert() {
  exchange "$http" "POST /insert/jsonline HTTP/1.0\r\nContent-Length: ${#1}\r\n\r\n$1" > "$work/reply"
}

# put FILE PLACE BYTE: changes a byte of a file
put() { printf %b "$3" | dd of="$1" bs=1 seek="$2" conv=notrunc 2> /dev/null; }

# copied NAME: copies the directory, and prints the path of the copy
copied() {
  cp -r "$logs" "$work/$1"
  echo "$work/$1"
}

is_missing=': No such file or directory (os error 2)' in_use=': another program uses this directory'
fault=$'\nvault fault\n' all='* | stats count() as n'
two=$'{"_msg":"one","_time":"2026-11-27T10:00:00Z"}\n{"_msg":"two","_time":"2026-11-28T10:00:00Z"}\n'

runs "query without a directory" 2 '' "$usage" query x
runs "query without a query" 2 '' "$usage" query --dir "$logs"
runs "load without a directory" 2 '' "$usage" load
runs "load with a query" 2 '' "$usage" load --dir "$logs" x
runs "pipe with a directory" 2 '' "$usage" pipe --dir "$logs" x
runs "trial with a directory" 2 '' "$usage" trial --dir "$logs" 7 10

query "a missing directory" 5 '' "$logs$is_missing$fault" "$logs" x
query "a refused query and a missing directory" 1 '' $'query: Syntax at 3\n' "$logs" 'a b)'
serve "a directory in a missing one" 5 "$logs/a$is_missing$fault" "$logs/a"
loads "load into a directory in a missing one" 5 '' "$logs/a$is_missing$fault" --dir "$logs/a" < "$work/three"
[ ! -e "$logs" ]; wants '' ''; : > "$work/out"; : > "$work/err"
judge "no directory was made" $? 0

mkdir "$work/none"
query "an empty directory" 0 '' '' "$work/none" x
query "an empty directory: no row" 0 $'{"n":"0"}\n' '' "$work/none" "$all"
judge "an empty directory stays empty" "$(ls -A "$work/none")" ''

# A server makes the directory and inserts two batches. The first has rows of two days, in the parts 2 and 3. The second
# has a row of the later day, and part 4 takes the place of part 3. The list is that of generation 2, in slot 0.
if start_server 2 '' "$logs"; then
  insert "$two"
  settles 20 && insert '{"_msg":"three","_time":"2026-11-28T11:00:00Z"}' && settles 20
  query "a query beside a server" 5 '' "$logs$in_use$fault" "$logs" x
  loads "load beside a server" 5 '' "$logs$in_use$fault" --dir "$logs" < "$work/three"
  serve "a second server" 5 "$logs$in_use$fault" "$logs"
  stop_server
fi
rows=$'{"_msg":"one"}\n{"_msg":"two"}\n{"_msg":"three"}\n'
query "a query after a server was stopped" 0 "$rows" '' "$logs" '* | fields _msg'
query "a query that begins with -" 0 $'{"_msg":"two"}\n{"_msg":"three"}\n' '' "$logs" '-one | fields _msg'
query "a refused query" 1 '' $'query: Syntax at 3\n' "$logs" 'a b)'
query "a file in the place of a directory" 5 '' "$logs/2/0: Not a directory (os error 20)$fault" "$logs/2" x
serve "a server over a file" 5 "$logs/2/..: Not a directory (os error 20)$fault" "$logs/2"

if [ -c /dev/full ]; then
  "$program" query --dir "$logs" one > /dev/full 2> "$work/err"
  status=$?; : > "$work/out"; wants "" ""
  judge "a full device as the output of a query" $status 4
fi

# a directory of another user
chmod 711 "$work"
cp "$program" "$work/program"
other=$(copied other)
if [ "$(id -u)" != 0 ]; then
  chmod 000 "$other"
  query "a directory that may not be read" 5 '' "$other: Permission denied (os error 13)$fault" "$other" x
  chmod 700 "$other"
elif command -v setpriv > /dev/null; then
  chmod 700 "$other"
  wants '' "$other: Permission denied (os error 13)$fault"
  setpriv --reuid 65534 --regid 65534 --clear-groups "$work/program" query --dir "$other" x \
    > "$work/out" 2> "$work/err"
  judge "a directory that may not be read" $? 5
else
  echo "SKIPPED a directory that may not be read: there is no setpriv"
fi

# damage, each in a copy
at=$(copied magic); put "$at/2" 5 X
query "a part that is none" 6 '' $'damaged file 2 at 0\n' "$at" x
serve "a server over it" 6 $'damaged file 2 at 0\n' "$at"
at=$(copied word); put "$at/2" "$(($(wc -c < "$at/2") - 1))" X
query "a part with another word than its filter has" 6 '' $'damaged file 2 at 53\n' "$at" x
at=$(copied version); put "$at/2" 6 '\11'
query "a part of another version" 6 '' $'version 9 in file 2\n' "$at" x
at=$(copied long); echo >> "$at/4"
query "a part that is too long" 6 '' "damaged file 4 at $(wc -c < "$logs/4")"$'\n' "$at" x
at=$(copied missing); rm "$at/4"
query "a part that is missing" 6 '' $'damaged file 4 at 0\n' "$at" x
at=$(copied list); put "$at/0" 3 X
query "a list that is none" 6 '' $'damaged file 0 at 1\n' "$at" x
at=$(copied list_version); put "$at/0" 7 '\11'
query "a list of another version" 6 '' $'version 9 in file 0\n' "$at" x
at=$(copied front); put "$at/0" 17 '\3'
query "a list with another front" 6 '' $'damaged file 0 at 17\n' "$at" x

# damage that the format does not show, as docs/BYTES.md says
at=$(copied time); put "$at/2" 22 '\1'
query "a time that was changed" 0 $'{"_time":"2026-11-27T10:00:00.000000001Z"}\n' '' "$at" 'one | fields _time'
at=$(copied gate); put "$at/0" 0 '\0'
query "a closed slot, and the older list lacks a part" 6 '' $'damaged file 3 at 0\n' "$at" x
at=$(copied gates); put "$at/0" 0 '\0'; put "$at/1" 0 '\0'
query "two closed slots" 0 $'{"n":"0"}\n' '' "$at" "$all"

at=$(copied slots); rm "$at/0" "$at/1"
query "no slot" 0 $'{"n":"0"}\n' '' "$at" "$all"
at=$work/days
if start_server 2 '' "$at"; then
  insert '{"_msg":"one","_time":"2026-11-27T10:00:00Z"}'
  settles 20 && insert '{"_msg":"two","_time":"2026-11-28T10:00:00Z"}' && settles 20
  stop_server
fi
query "rows of two days" 0 $'{"_msg":"one"}\n{"_msg":"two"}\n' '' "$at" '* | fields _msg'
put "$at/0" 0 '\0'
query "a closed slot, and the older list has its part" 0 $'{"_msg":"one"}\n' '' "$at" '* | fields _msg'

# files that the list does not name
at=$(copied unlisted); echo x > "$at/3"; echo x > "$at/71"
query "files that no list names" 0 $'{"n":"3"}\n' '' "$at" "$all"
"$top/tools/unlisted" "$at" > "$work/out" 2> "$work/err"
status=$?; wants $'3\n71\n' ''
judge "tools/unlisted" $status 0

# a server that is killed
if start_server 2 '' "$logs"; then
  insert '{"_msg":"four"}'
  settles 20
  insert '{"_msg":"five"}'
  stop_server KILL
fi
query "a query after a server was killed" 0 $'{"_msg":"four"}\n' '' "$logs" 'four | fields _msg'
"$program" query --dir "$logs" "$all" > "$work/out" 2> "$work/err"
status=$?; sed -i 's/"5"/"4"/' "$work/out"; wants $'{"n":"4"}\n' ''
judge "all settled batches are there, and perhaps the last" $status 0

# load
at=$work/loaded
loads "load" 0 $'flushed 1\n' '' --dir "$at" < "$work/three"
loads "load again, with a refused line" 0 $'flushed 2\n' $'line 24: NotJson\n' --dir "$at" --stream-fields host \
  < "$top/examples/access.jsonl"
loads "load of nothing" 0 '' '' --dir "$at" < /dev/null
query "what was loaded" 0 $'{"n":"42"}\n' '' "$at" "$all"
query "the labels of what was loaded" 0 $'{"n":"10"}\n' '' "$at" '{host="web-1"} | stats count() as n'
seq -f '{"n":"%g"}' 17000 > "$work/many"
loads "load of 17 batches" 0 $'flushed 16\nflushed 17\n' '' --dir "$work/many_loaded" < "$work/many"
query "17 batches" 0 $'{"n":"17000"}\n' '' "$work/many_loaded" "$all"
loads "load of a folder" 3 '' $'read fault\n' --dir "$at" < "$work"
(trap '' XFSZ; ulimit -f 2; timeout 60 "$program" load --dir "$at" < "$work/many" > "$work/out" 2> "$work/err")
status=$?
sed -i "s|^$at/[0-9]*:|FILE:|" "$work/err"; wants '' "FILE: File too large (os error 27)$fault"
judge "load on a full disk" $status 5
query "after load on a full disk" 0 $'{"n":"42"}\n' '' "$at" "$all"

# each fifth of the cases of tests/logsql/
if DUVONKA=$program "$top/tests/logsql.sh"; then passed=$((passed + 1)); else failed=$((failed + 1)); fi

echo "$passed passed, $failed failed"
[ "$failed" = 0 ]
