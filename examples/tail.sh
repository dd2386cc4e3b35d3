#!/usr/bin/env bash
# Follows new rows: prints the rows that a filter selects as they come in, in that order, until Ctrl-C. It asks again
# every 2 seconds, and each question reads all rows of the server, so don't leave it running on a large log. It stands
# beside the proved program, and nothing about it is proved.
# usage: tail.sh [-n N] [--] FILTER     as tail.sh -n 20 'error | fields _time, _msg'
#   -n N   first prints the last N rows that came in (default: 10)
# After the filter only pipes may follow that make one record of each row, or drop rows: fields, delete, rename, copy,
# filter. The environment variable DUVONKA_URL is the server's address (default: http://127.0.0.1:9428); curl takes a
# password for it from ~/.netrc.
set -u
url=${DUVONKA_URL:-http://127.0.0.1:9428}
last=10
if [ "${1:-}" = -n ]; then
  last=${2:-}
  shift 2
fi
[ "${1:-}" != -- ] || shift
if [ $# != 1 ] || ! [[ $last =~ ^[0-9]+$ ]]; then
  echo "usage: tail.sh [-n N] [--] FILTER" >&2
  exit 2
fi
filter=$1
reply=$(mktemp) || exit 2
trap 'rm -f "$reply"' EXIT

# answer QUERY: writes the records to the file; ends the script where the query is refused
answer() {
  local status
  status=$(printf %s "$1" | curl -s -m 60 --netrc-optional -o "$reply" -w '%{http_code}' --data-urlencode query@- \
    "$url/select/logsql/query")
  case $status in
    200) return 0 ;;
    4??) echo "tail.sh: $(cat "$reply")" >&2; exit 1 ;;
    *) return 1 ;;
  esac
}

# batches: prints how many batches the server holds, or nothing
batches() { curl -s -m 60 --netrc-optional "$url/status" | sed -n 's/.*"batches":"\([0-9]*\)".*/\1/p'; }

answer "$filter | stats count() as n" || { echo "tail.sh: no reply from $url" >&2; exit 1; }
seen=$(sed 's/[^0-9]//g' "$reply")
seen=$((seen > last ? seen - last : 0))
held=$(batches)
while :; do
  now=$(batches)
  if [ -n "$now" ] && [ "$now" -lt "${held:-0}" ]; then
    echo "tail.sh: the server was restarted, and has lost rows that were not on disk" >&2
    answer "$filter | stats count() as n" && seen=$(sed 's/[^0-9]//g' "$reply")
  fi
  held=${now:-$held}
  # rows are answered in the order in which they came in, so those after the first `seen` are new
  if answer "$filter | offset $seen | limit 1000" && [ -s "$reply" ]; then
    cat "$reply"
    seen=$((seen + $(wc -l < "$reply")))
  else
    sleep 2
  fi
done
