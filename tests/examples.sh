#!/usr/bin/env bash
# Tries what is in examples/ against servers of the built program, which this script starts on ports of 127.0.0.1 and
# stops: the scripts, and the configurations of the tools that are installed. The gate does not run it.
# usage: tests/examples.sh     (the environment variable DUVONKA is the path of another build)
# Its last line is 'N passed, M failed, K skipped'.
set -u
export LC_ALL=C.UTF-8
top=$(cd "$(dirname "$0")/.." && pwd)
program=${DUVONKA:-$top/crates/duvonka/out/duvonka} examples=$top/examples
[ -x "$program" ] || { echo "examples.sh: the program is not built: run ./duvonka --build, or set DUVONKA" >&2; exit 2; }
work=$(mktemp -d) || exit 2
# for the files of curl, of the browser and of others
export HOME=$work
# shellcheck source=tests/serving.sh
. "$top/tests/serving.sh"
# set by serving.sh
http='' syslog='' port=''
started=()
end() {
  local id
  for id in "${started[@]}"; do kill "$id" 2> /dev/null; done
  stop_servers
  rm -rf "$work"
}
trap end EXIT
trap 'exit 1' INT TERM
PATH=$PATH:/usr/sbin:/sbin
passed=0 failed=0 skipped=0

# judge NAME GOT WANTED
judge() {
  if [ "$2" = "$3" ]; then
    passed=$((passed + 1))
  else
    failed=$((failed + 1))
    printf 'FAILED %s: %q, not %q\n' "$1" "${2:0:600}" "${3:0:600}"
  fi
}

# has NAME TOOLS..: succeeds if these tools are installed; else prints that this part is skipped, and counts it
has() {
  local name=$1 tool
  shift
  for tool in "$@"; do
    command -v "$tool" > /dev/null && continue
    skipped=$((skipped + 1))
    echo "SKIPPED $name: there is no $tool"
    return 1
  done
}

# comes_to NAME QUERY WANTED: waits up to 15 seconds until a query returns these records, and judges its last reply
comes_to() {
  local got
  for _ in {1..150}; do
    got=$(ask "$2")
    [ "$got" = "$3" ] && break
    sleep 0.1
  done
  judge "$1" "$got" "$3"
}

# starts COMMAND..: starts a daemon with its output in the file log
starts() {
  timeout 120 "$@" < /dev/null > "$work/log" 2>&1 &
  started+=("$!")
}

# stops: stops the process that was started last
stops() {
  kill "${started[-1]}" 2> /dev/null
  wait "${started[-1]}" 2> /dev/null
  unset 'started[-1]'
}

# listens PORT: waits up to 10 seconds until this port accepts connections
listens() {
  for _ in {1..100}; do
    (exec 3<> "/dev/tcp/127.0.0.1/$1") 2> /dev/null && return 0
    sleep 0.1
  done
  return 1
}

# runs SCRIPT WORDS..: prints the output, the error text and the status of a script of examples/
runs() {
  local script=$examples/$1
  shift
  timeout 100 "$script" "$@" 2>&1
  echo "status $?"
}

by_ask() {
  local query
  judge "ship.sh prints refused lines" \
    "$( (cat "$examples/nginx.jsonl"; printf '{"_msg":"cut') | runs ship.sh '_stream_fields=status')" \
    "ship.sh: refused, NotJson: $(tail -n 1 "$examples/nginx.jsonl")
ship.sh: refused, NotJson: {\"_msg\":\"cut
status 0"
  judge "ask" "$(runs ask 'status:404 | fields _msg')" $'{"_msg":"GET /favicon.ico HTTP/1.1"}\nstatus 0'
  judge "ask -n: the latest, the newest last" "$(runs ask -n 2 '* | fields _time, status')" \
    $'{"_time":"2026-11-27T08:14:04Z","status":"404"}\n{"_time":"2026-11-27T08:14:04Z","status":"400"}\nstatus 0'
  query='GET or POST or "a | b" | stats count() as n'
  judge "ask --since holds for the whole filter" "$(runs ask --since 1h "$query")" $'{"n":"0"}\nstatus 0'
  judge "ask --since, long ago" "$(runs ask --since 5000w "$query")" $'{"n":"4"}\nstatus 0'
  judge "ask after --" "$(runs ask -- '-GET | stats count() as n')" $'{"n":"2"}\nstatus 0'
  judge "a caret under the place" "$(runs ask 'error and')" $'error and\n         ^ Syntax at 9\nstatus 1'
  judge "a caret after wide characters" "$(runs ask '请求 a b)')" $'请求 a b)\n        ^ Syntax at 10\nstatus 1'
  judge "a fault without a place" "$(runs ask '~"("')" $'~"("\nRegexRefused number 0\nstatus 1'
  judge "ask without a server" "$(DUVONKA_URL=http://127.0.0.1:1 runs ask x | tail -n 1)" "status 2"
  has "ask on a terminal" jq script || return
  judge "ask on a terminal" "$(script -qec "'$examples/ask' 'status:404 | fields status'" /dev/null < /dev/null |
    sed 's/\x1b\[[0-9;]*m/!/g' | tr -d '\r' | grep -c '!"404"!')" 1
}

by_ship() {
  local before after first
  first=$(batches)
  before=$(ask '* | stats count() as n' | sed 's/[^0-9]//g')
  seq 1200 | sed 's/.*/{"_msg":"shipped &"}/' > "$work/rows"
  judge "ship.sh" "$(SHIP_SECONDS=30 runs ship.sh < "$work/rows")" "status 0"
  after=$(ask '* | stats count() as n' | sed 's/[^0-9]//g')
  judge "1,200 lines in two requests" "$((after - before)) rows, $(($(batches) - first)) batches" "1200 rows, 2 batches"
  (echo '{"_msg":"early"}'; sleep 1; printf '{"_msg":'; sleep 4; echo '"late"}'; sleep 20) |
    timeout 60 "$examples/ship.sh" &
  started+=("$!")
  sleep 4
  judge "ship.sh after two seconds, without half a line" "$(ask '~"^(early|late)$" | fields _msg')" '{"_msg":"early"}'
  comes_to "ship.sh, a line in two pieces" '~"^(early|late)$" | fields _msg' $'{"_msg":"early"}\n{"_msg":"late"}'
  stops
  judge "ship.sh, a refused argument" "$(echo '{"_msg":"kept"}' | runs ship.sh 'extra_fields==x')" \
    $'ship.sh: status 400 BadArgument extra_fields; these lines were not sent:\n{"_msg":"kept"}\nstatus 1'
}

by_tail() {
  timeout 10 "$examples/tail.sh" -n 1 '"tailed" | fields _msg' > "$work/tailed" 2> /dev/null &
  local tail=$!
  sleep 3
  echo '{"_msg":"tailed 1"}' | "$examples/ship.sh"
  echo '{"_msg":"tailed 2","_time":"2001-01-01T00:00:00Z"}' | "$examples/ship.sh"
  wait "$tail"
  judge "tail.sh" "$(cat "$work/tailed")" $'{"_msg":"tailed 1"}\n{"_msg":"tailed 2"}'
  judge "tail.sh, a refused filter" "$(runs tail.sh 'a b)')" $'tail.sh: Syntax at 3\nstatus 1'
}

# start_front: starts nginx with the file of examples/, at other ports and paths. Sets front to its address
start_front() {
  local folder=$work/nginx
  free_port || return 1
  front=https://127.0.0.1:$port
  mkdir "$folder"
  openssl req -x509 -newkey rsa:2048 -nodes -subj /CN=127.0.0.1 -days 2 -keyout "$folder/key" -out "$folder/pem" \
    2> /dev/null
  printf 'reader:%s\n' "$(openssl passwd -6 read)" > "$folder/duvonka.readers"
  printf 'shipper:%s\n' "$(openssl passwd -6 ship)" > "$folder/duvonka.writers"
  sed "s|listen 443|listen 127.0.0.1:$port|; s|127.0.0.1:9428|127.0.0.1:$http|; s|/usr/share/duvonka/web|$examples/web|
    s|/etc/nginx/logs.internal.|$folder/|; s|/etc/nginx/|$folder/|; s|/var/log/nginx|$folder|" \
    "$examples/nginx.conf" > "$folder/site"
  # as root its workers would become a user who cannot read this folder
  cat > "$folder/conf" << CONF
daemon off;
pid $folder/pid;
$([ "$(id -u)" != 0 ] || echo 'user root;')
events { }
http {
  client_body_temp_path $folder/body; proxy_temp_path $folder/proxy; fastcgi_temp_path $folder/fastcgi;
  uwsgi_temp_path $folder/uwsgi; scgi_temp_path $folder/scgi;
  types { text/html html; }
  include $folder/site;
}
CONF
  starts nginx -c "$folder/conf" -e "$folder/error"
  listens "$port"
}

# fronted USER:PASSWORD ARGUMENTS..: prints what curl gets from nginx
fronted() { curl -q -sk --noproxy '*' -m 20 -u "$@"; }

# code USER:PASSWORD ARGUMENTS..: prints the status that curl gets from nginx
code() { fronted "$@" -o /dev/null -w '%{http_code}'; }

by_nginx() {
  local other
  has "nginx" nginx curl openssl || return
  start_front || { judge "nginx" "$(head -n 3 "$work/log")" "listens"; return; }
  judge "nginx: health without a password" "$(code : "$front/health")" 200
  judge "nginx: the reader asks" "$(fronted reader:read "$front/select/logsql/query" \
    --data-urlencode 'query=status:404 | fields status')" '{"status":"404"}'
  judge "nginx: the reader does not insert" "$(code reader:read "$front/insert/jsonline" -d '{"_msg":"a"}')" 401
  judge "nginx: the shipper inserts" "$(fronted shipper:ship "$front/insert/jsonline" \
    -d '{"_msg":"<b>by nginx</b>","_time":"2020-01-01T00:00:30Z"}' | sed 's/"batch":"[0-9]*",//')" \
    '{"accepted":"1","refused":"0"}'
  judge "nginx: the shipper does not ask" "$(code shipper:ship "$front/select/logsql/query?query=a")" 401
  other='Sec-Fetch-Site: cross-site'
  judge "nginx: a query by another site" "$(code reader:read "$front/select/logsql/query?query=a" -H "$other")" 403
  judge "nginx: an insert by another site" \
    "$(code shipper:ship "$front/insert/jsonline" -H "$other" -d '{"_msg":"a"}')" 403
  judge "nginx: a link from another site" "$(code reader:read "$front/" -H "$other")" 200
  judge "nginx: the page" "$(fronted reader:read "$front/" | cmp - "$examples/web/index.html" 2>&1)" ''
  judge "nginx: its access log as rows" "$(runs ship.sh '_stream_fields=server_name' < "$work/nginx/duvonka.jsonl")" \
    "status 0"
  judge "nginx: its access log is read whole" \
    "$(ask '{server_name="logs.internal"} "/select/logsql/query" | fields _msg, remote_user, status')" \
    '{"_msg":"POST /select/logsql/query HTTP/1.1","remote_user":"reader","status":"200"}
{"_msg":"GET /select/logsql/query?query=a HTTP/1.1","remote_user":"shipper","status":"401"}
{"_msg":"GET /select/logsql/query?query=a HTTP/1.1","remote_user":"reader","status":"403"}'
  limited_queries
  by_chromium
  stops
}

# limited_queries: asks while 3 and while 4 clients are in the middle of a query
limited_queries() {
  local _
  for _ in {1..3}; do slow_query; done
  sleep 1
  judge "nginx: a fourth query" "$(code reader:read "$front/select/logsql/query?query=a")" 200
  slow_query
  sleep 1
  judge "nginx: a fifth query at once" "$(code reader:read "$front/select/logsql/query?query=a")" 503
  for _ in {1..4}; do stops; done
}

# slow_query: starts a client that begins a query and does not finish its request
slow_query() {
  sleep 20 | curl -q -sk --noproxy '*' -m 20 -u reader:read -X POST -T - "$front/select/logsql/query" > /dev/null &
  started+=("$!")
}

# browsed FORM: prints the page as HTML, as it is in the browser after its requests. Reaches no other address
browsed() {
  timeout 90 chromium --headless --no-sandbox --disable-gpu --user-data-dir="$work/chromium" \
    --ignore-certificate-errors \
    --no-first-run --disable-background-networking --disable-component-update --disable-sync --disable-default-apps \
    --host-resolver-rules='MAP * ~NOTFOUND, EXCLUDE 127.0.0.1' --virtual-time-budget=30000 --dump-dom \
    "${front/'//'/'//reader:read@'}/#$1" 2> "$work/chromium_log"
}

by_chromium() {
  local wanted
  for wanted in script style; do
    judge "the sum of the page's $wanted" "$(grep -o "$wanted-src 'sha256-[^']*'" "$examples/web/index.html")" \
      "$wanted-src 'sha256-$(sum_of "$wanted")'"
  done
  has "the page in Chromium" chromium || return
  browsed 'range=all&filter=nginx' > "$work/page"
  judge "the page: a row, as text" "$(grep -o '<tbody>.*</tbody>' "$work/page")" \
    '<tbody><tr><td>2020-01-01T00:00:30Z</td><td>&lt;b&gt;by nginx&lt;/b&gt;</td><td>_stream={}</td></tr></tbody>'
  judge "the page: bars" "$(grep -o 'title="[^"]*"' "$work/page")" 'title="2020-01-01T00:00:30Z: 1"'
  browsed 'range=between&from=2026-11-27&to=2026-11-28&filter=GET+or+POST&pipes=stats+by+(status)+count()+as+n' \
    > "$work/page"
  judge "the page: pipes" "$(grep -o '<thead>.*</tbody>' "$work/page" | sed 's/<tr>/\n&/g' | sed -n '2,3p;$=')" \
    $'<tr><th>n</th><th>status</th></tr></thead><tbody>\n<tr><td>1</td><td>200</td></tr>\n6'
  browsed 'range=all&filter=a+b)' > "$work/page"
  judge "the page: a fault" "$(grep -A 1 '<pre id="fault">' "$work/page" | sed 's/ | stats.*//; s/<.pre>//')" \
    $'<pre id="fault">a b)\n   ^ Syntax at 3'
}

# sum_of ELEMENT: prints the checksum of the page's script or style, as its policy must have it
sum_of() {
  sed -n "/<$1>/,/<\/$1>/p" "$examples/web/index.html" | sed "1s/.*<$1>//; \$s/<\/$1>.*//" | head -c -1 |
    openssl dgst -sha256 -binary | base64
}

# relayed PORT: sends RFC 3164 messages to a relay: 100 over TCP, with pauses, and 100 over UDP
relayed() {
  local number
  (exec 3<> "/dev/tcp/127.0.0.1/$1" &&
    for number in {1..100}; do
      printf '<13>Oct 11 22:14:15 oldhost su[42]: message %d\n' "$number" >&3
      sleep 0.01
    done)
  (exec 3<> "/dev/udp/127.0.0.1/$1" &&
    for number in {1..100}; do printf '<13>Oct 11 22:14:15 oldhost login: message %d' "$number" >&3; done)
}

# batches: prints how many batches the server holds
batches() { exchange "$http" 'GET /status HTTP/1.0\r\n\r\n' | sed -n 's/.*"batches":"\([0-9]*\)".*/\1/p'; }

# judge_relay NAME: judges what came through a relay, and from a file of 20 lines
judge_relay() {
  comes_to "$1, all messages" '* | stats by (app_name) count_uniq(_msg) as n' \
    $'{"app_name":"from-file","n":"20"}\n{"app_name":"login","n":"100"}\n{"app_name":"su","n":"100"}'
  comes_to "$1, a message of RFC 3164" 'app_name:su ="message 7" | fields _msg, hostname, proc_id, severity' \
    '{"_msg":"message 7","hostname":"oldhost","proc_id":"42","severity":"5"}'
}

by_rsyslog() {
  has "rsyslog.conf" rsyslogd || return
  local folder=$work/rsyslog
  if ! start_server 2 syslog || ! free_port; then judge "a server for rsyslog" none one; return; fi
  mkdir "$folder"
  seq -f 'line %g' 20 > "$folder/file"
  cat > "$folder/conf" << CONF
global(workDirectory="$folder")
module(load="imfile")
$(sed "s/\"5514\"/\"$syslog\"/; s/port=\"514\"/address=\"127.0.0.1\" port=\"$port\"/; s/\"4000\"/\"50\"/" \
  "$examples/rsyslog.conf")
input(type="imfile" File="$folder/file" Tag="from-file")
CONF
  starts rsyslogd -n -i "$folder/pid" -f "$folder/conf"
  listens "$port"
  relayed "$port"
  judge_relay "rsyslog"
  judge "rsyslog collects messages: at most 20 batches" "$(($(batches) <= 20))" 1
  stops
  stop_server
}

# by_syslog_ng [lines]: tries the first destination of the file, or the second
by_syslog_ng() {
  local folder=$work/syslog_ng$1
  has "syslog-ng.conf ${1:-http}" syslog-ng || return
  if ! start_server 2 syslog || ! free_port; then judge "a server for syslog-ng" none one; return; fi
  mkdir "$folder"
  seq -f 'line %g' 20 > "$folder/file"
  cat > "$folder/conf" << CONF
@version: $(syslog-ng --version 2> /dev/null | sed -n 's/^Config version: //p')
source s_src { file("$folder/file" flags(no-parse) program-override("from-file") follow-freq(1)); };
$(sed "s/:9428/:$http/; s/port(5514)/port($syslog)/; s/port(514)/port($port)/; s/0\.0\.0\.0/127.0.0.1/
  s/(10000)/(3000)/; s/destination(d_duvonka)/destination(d_duvonka${1:+_$1})/" "$examples/syslog-ng.conf")
CONF
  if [ "$(id -u)" = 0 ]; then set -- "$1" --no-caps; fi
  starts syslog-ng -F "${@:2}" -f "$folder/conf" -R "$folder/persist" -p "$folder/pid" -c "$folder/control"
  listens "$port" || { judge "syslog-ng.conf $1" "$(head -n 5 "$work/log")" "listens"; return; }
  relayed "$port"
  judge_relay "syslog-ng ${1:-http}"
  [ "$1" = lines ] || judge "syslog-ng collects messages: at most 20 batches" "$(($(batches) <= 20))" 1
  stops
  stop_server
}

# unit_script KEY WORD: the shell's script of the line of the unit with this key and this word, as systemd gives it to
# the shell
unit_script() {
  local text
  text=$(sed -n "s|^$1=.*/bin/sh -c '\(.*$2.*\)'\$|\1|p" "$work/duvonka.service")
  printf %s "${text//\$\$/\$}"
}

# by_unit: runs the commands of the unit with other ports and another directory, and lets systemd verify it
by_unit() {
  local start post listens stop one
  free_port; one=$port
  free_port; [ "$one" != "$port" ] || free_port
  sed "s|/usr/bin/duvonka|$program|; s|:9428|:$one|; s|:5514|:$port|; s|/var/lib/duvonka|$work/state|" \
    "$examples/duvonka.service" > "$work/duvonka.service"
  read -ra start <<< "$(sed -n 's/^ExecStart=//p' "$work/duvonka.service")"
  post=$(unit_script ExecStartPost health)
  listens=$(unit_script ExecStartPost telnet)
  stop=$(unit_script ExecStop status)
  timeout 20 sh -c "${post//600/10}" 2> /dev/null
  judge "the unit: nothing answers" "$?" 1
  timeout 20 sh -c "$listens" 2> /dev/null
  judge "the unit: nothing listens for syslog" "$?" 1
  MAINPID=99999999 timeout 20 sh -c "$stop" 2> /dev/null
  judge "the unit: it does not wait for a server that is gone" "$?" 0
  starts "${start[@]}"
  timeout 60 sh -c "$post" 2> /dev/null
  judge "the unit: it waits until the server answers" "$?" 0
  timeout 20 sh -c "$listens" 2> /dev/null
  judge "the unit: syslog listens" "$?" 0
  http=$one
  for _ in {1..5}; do
    exchange "$one" 'POST /insert/jsonline HTTP/1.0\r\nContent-Length: 16\r\n\r\n{"_msg":"of it"}' > /dev/null
  done
  MAINPID=${started[-1]} timeout 60 sh -c "$stop" 2> /dev/null
  judge "the unit: before it stops, all batches are settled" "$? $(numbers)" "0 5 5"
  stops
  judge "the unit: the batches are there after it stopped" \
    "$("$program" query --dir "$work/state" '"of it" | stats count() as n' 2>&1)" '{"n":"5"}'
  has "the unit, by systemd" systemd-analyze || return
  judge "the unit, by systemd" "$(systemd-analyze verify "$work/duvonka.service" 2>&1 | grep duvonka; echo .)" .
}

if start_server 4 syslog; then
  export DUVONKA_URL=http://127.0.0.1:$http
  if has "the scripts" curl; then
    by_ask
    by_ship
    by_tail
  fi
  by_nginx
  stop_server
else
  judge "a server" "none: $(head -c 300 "$work/server_err")" "one that answers"
fi
by_rsyslog
by_syslog_ng ''
by_syslog_ng lines
by_unit
for file in vector.toml fluent-bit.conf; do
  skipped=$((skipped + 1))
  echo "SKIPPED $file: Debian 12 has no package of its tool, so it is not tried"
done

echo "$passed passed, $failed failed, $skipped skipped"
[ "$failed" = 0 ]
