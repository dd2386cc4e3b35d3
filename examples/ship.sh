#!/usr/bin/env bash
# Ships JSON lines from its standard input to a server: a request for every 1,000 lines, or after 2 seconds. Prints each
# line that the server refused, with the reason. It stands beside the proved program, and nothing about it is proved.
# usage: tail -n 0 -F app.jsonl | ship.sh [ARGUMENTS]     as ship.sh '_stream_fields=host,app&_time_field=ts'
# The environment variable DUVONKA_URL is the server's address (default: http://127.0.0.1:9428); curl takes a password
# for it from ~/.netrc. Plain text becomes JSON lines by `jq -Rc --unbuffered '{_msg: .}'`.
# Each request is a batch. The environment variable SHIP_SECONDS says how long a line waits at most, 2 seconds without
# it: where many senders ship to one server, a longer time makes fewer and larger batches.
# A reply of 200 does not say that the lines are on disk (docs/OPERATIONS.md, What a 200 means), and ship.sh does not
# wait for that: after a crash of the server its last lines may be missing.
# Where the server cannot be reached or is full, a request is tried again for about a minute. After that ship.sh prints
# the lines that it could not send, and ends with status 1. If the reply to an accepted request is lost, its lines are
# sent twice.
# It reads some thousand lines a second. For a file that is complete, use curl --data-binary @FILE.
set -u
target="${DUVONKA_URL:-http://127.0.0.1:9428}/insert/jsonline${1:+?$1}"
delay=$((${SHIP_SECONDS:-2} * 1000))
lines=() size=0 partial='' deadline='' ended=''
trap 'ended=1' INT TERM

# now: sets now to the time in milliseconds
now() { now=$((${EPOCHREALTIME/[.,]/} / 1000)); }

# print_refused REPLY: prints the lines that the reply names, and how many more were refused
print_refused() {
  local refused=0 named=0 place reason
  [[ $1 =~ \"refused\":\"([0-9]+)\" ]] && refused=${BASH_REMATCH[1]}
  [ "$refused" != 0 ] || return 0
  if [[ $1 =~ \"faults\":\"([^\"]*)\" ]]; then
    while read -r place reason; do
      echo "ship.sh: refused, $reason: ${lines[place - 1]}" >&2
      named=$((named + 1))
    done <<< "${BASH_REMATCH[1]//, /$'\n'}"
  fi
  [ "$named" = "$refused" ] || echo "ship.sh: refused, and not named: $((refused - named)) more lines" >&2
}

# give_up WHY: prints the lines that were not sent, and ends the script
give_up() {
  echo "ship.sh: $1; these lines were not sent:" >&2
  printf '%s\n' "${lines[@]}" >&2
  exit 1
}

# send: posts all lines that wait
send() {
  local reply status='' wait
  [ "${#lines[@]}" -gt 0 ] || return 0
  for wait in 1 2 4 8 16 30 0; do
    reply=$(printf '%s\n' "${lines[@]}" |
      curl -s -m 60 --netrc-optional -H 'Expect:' --data-binary @- -w '\n%{http_code}' "$target")
    status=${reply##*$'\n'} reply=${reply%$'\n'*} reply=${reply%$'\n'}
    case $status in
      200) break ;;
      000 | 502 | 503 | 504 | 507) [ "$wait" = 0 ] || sleep "$wait" ;;
      *) break ;;
    esac
  done
  [ "$status" = 200 ] || give_up "status ${status:-000} ${reply:0:200}"
  print_refused "$reply"
  lines=() size=0 deadline=''
}

while [ -z "$ended" ]; do
  now
  # at most a second, so that a signal ends the script soon
  remaining=1000
  [ -z "$deadline" ] || remaining=$((deadline - now))
  remaining=$((remaining < 1 ? 1 : remaining > 1000 ? 1000 : remaining))
  IFS= read -r -t "$((remaining / 1000)).$(printf %03d $((remaining % 1000)))" line
  status=$?
  # a line of which only a part came in time is kept
  partial+=$line
  if [ "$status" = 0 ]; then
    lines+=("$partial") size=$((size + ${#partial} + 1)) partial=''
    [ -n "$deadline" ] || { now; deadline=$((now + delay)); }
  elif [ "$status" -le 128 ]; then
    ended=1
  fi
  now
  # a request may have 32 MiB
  if [ "${#lines[@]}" -ge 1000 ] || [ "$size" -ge 8000000 ] || [ "${deadline:-$now}" -lt "$now" ]; then send; fi
done
[ -z "$partial" ] || lines+=("$partial")
send
