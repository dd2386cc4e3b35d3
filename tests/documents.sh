#!/usr/bin/env bash
# Runs each example of the documents and compares what it prints with what the document shows. An example stands in a
# block that begins with ```console: a line "$ COMMAND", which goes on in the next line where it ends with a bar, and
# below it what the command prints. A document whose examples ask a server gets a new one. The directory /tmp/logs of an
# example is that of the document's server, or else a new one. The numbers in the tables of filters of docs/LOGSQL.md,
# and the faults in the tables of docs/ERRORS.md, are compared too.
# usage: tests/documents.sh     (the environment variable DUVONKA is the path of another build)
# Its last line is 'N passed, M failed, K skipped'.
set -u
export LC_ALL=C.UTF-8
top=$(cd "$(dirname "$0")/.." && pwd)
program=${DUVONKA:-$top/crates/duvonka/out/duvonka}
cd "$top" || exit 1
if ! [ -x "$program" ]; then
  echo "FAILED all: the program is not built: run ./duvonka --build, or set DUVONKA to the path of one"
  echo "0 passed, 1 failed, 0 skipped"
  exit 1
fi
work=$(mktemp -d) || exit 1
# shellcheck source=tests/serving.sh
. tests/serving.sh
trap 'stop_servers; rm -rf "$work"' EXIT
trap 'exit 1' INT TERM
passed=0 failed=0 skipped=0

# judge NAME GOT WANTED
judge() {
  if [ "$2" = "$3" ]; then
    passed=$((passed + 1))
  else
    failed=$((failed + 1))
    printf 'FAILED %s: it prints\n%s\nand not\n%s\n' "$1" "$2" "$3"
  fi
}

# without_arrival TEXT: the text with each time of arrival replaced: today's in what was printed, and in a document each
# that is given to the nanosecond
without_arrival() {
  printf %s "$1" | sed -E "s/\"_time\":\"(($today|$(date -u +%F))T[0-9:.]*|[0-9T:-]*\.[0-9]{9})Z\"/\"_time\":\"NOW\"/g"
}

# try DOCUMENT COMMAND WANTED: runs an example
try() {
  local document=$1 command=$2 wanted=$3 tool got=''
  for tool in curl jq logger; do
    if [[ $command = *$tool\ * ]] && ! command -v "$tool" > /dev/null; then
      skipped=$((skipped + 1))
      echo "SKIPPED $document, $command: there is no $tool"
      return
    fi
  done
  command=${command//.\/duvonka /\"$program\" }
  command=${command//curl /curl -q --noproxy \'*\' -s -m 20 }
  command=${command//127.0.0.1:9428/127.0.0.1:$http}
  command=${command//5514/$syslog}
  command=${command//\/tmp\/logs/$logs}
  # what came by syslog may take a moment to arrive, and batches take some seconds to settle
  for _ in {1..200}; do
    got=$(timeout 60 bash -c "$command" 2>&1 < /dev/null)
    if [[ $command = */status* ]]; then
      [ "$got" = "$wanted" ] && break
    else
      [ -n "$got" ] || [ -z "$wanted" ] && break
    fi
    sleep 0.1
  done
  got=${got//"$logs"//tmp/logs}
  judge "$document, $2" "$(without_arrival "$got")" "$(without_arrival "$wanted")"
}

# examples DOCUMENT: tries all of a document
examples() {
  local document=$1 line command='' wanted='' inside='' more=''
  http='' syslog='' logs=$work/logs.${document//\//.}
  # a line of the file as it stands, and one more that ends the last example
  while IFS= read -r line; do
    if [ -n "$more" ]; then
      command+=$'\n'$line
      [[ $line = *\| ]] || more=''
      continue
    fi
    if [ -n "$command" ] && [[ $line = '$ '* || $line = '```' ]]; then
      try "$document" "$command" "${wanted%$'\n'}"
      command='' wanted=''
    fi
    if [ "$line" = '```console' ]; then
      inside=1
    elif [ "$line" = '```' ]; then
      inside=''
    elif [ -n "$inside" ] && [[ $line = '$ '* ]]; then
      command=${line#'$ '}
      [[ $line = *\| ]] && more=1
      if [ -z "$http" ] && [[ $command$more = *127.0.0.1* || -n $more ]]; then
        start_server 4 syslog || { judge "$document, a server" none "one that answers"; return; }
        logs=$directory
      fi
    elif [ -n "$inside" ]; then
      wanted+=$line$'\n'
    fi
  done < "$document"
  [ -z "$http" ] || stop_server
}

# tables: how many rows of the example each filter of the tables selects
tables() {
  local line filter rows
  while IFS= read -r line; do
    [[ $line =~ ^'| `'([^|]*)'` |'.*'| '([0-9]+)' |'$ ]] || continue
    filter=${BASH_REMATCH[1]} rows=${BASH_REMATCH[2]}
    judge "docs/LOGSQL.md, the filter $filter" \
      "$("$program" pipe "$filter | stats count() as n" < examples/access.jsonl 2> /dev/null)" "{\"n\":\"$rows\"}"
  done < docs/LOGSQL.md
}

# faults: the fault of each query in the tables of faults, and each timestamp of the table of those that are refused
faults() {
  local line query fault refused=''
  while IFS= read -r line; do
    case $line in
      '### `BadTime` of a line') refused=1 ;;
      '#'*) refused='' ;;
    esac
    if [ -n "$refused" ] && [[ $line =~ ^'| `'([^\`]*)'`' ]]; then
      judge "docs/ERRORS.md, the timestamp ${BASH_REMATCH[1]}" \
        "$(printf '{"a":"b","_time":"%s"}\n' "${BASH_REMATCH[1]}" | "$program" pipe '*' 2>&1)" "line 1: BadTime"
    elif [[ $line =~ ^'| `'([^\`]*)'` | `'([A-Z][A-Za-z]*' at '[0-9]+)'` |' ]]; then
      query=${BASH_REMATCH[1]//\\|/|} fault=${BASH_REMATCH[2]}
      judge "docs/ERRORS.md, the query $query" "$("$program" pipe -- "$query" 2>&1 < /dev/null)" "query: $fault"
    fi
  done < docs/ERRORS.md
}

today=$(date -u +%F)
for document in README.md docs/*.md; do
  before=$((passed + failed + skipped))
  examples "$document"
  case $document in
    README.md | docs/ERRORS.md | docs/HTTP.md | docs/LOGSQL.md | docs/OPERATIONS.md | docs/SYSLOG.md)
      [ $((passed + failed + skipped)) -gt "$before" ] || judge "$document" "no example" "at least one"
      ;;
  esac
done
tables
faults

echo "$passed passed, $failed failed, $skipped skipped"
[ "$failed" = 0 ]
