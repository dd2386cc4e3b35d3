#!/usr/bin/env bash
# Asks the built program the cases of tests/logsql/ that do not set the clock: each fifth of them, or those of the files
# that are named, or, with the word all, all of them. tests/logsql/README.md describes the files.
# Its last line is 'N passed, M failed'.
set -u
export LC_ALL=C.UTF-8
top=$(cd "$(dirname "$0")/.." && pwd)
program=${DUVONKA:-$top/crates/duvonka/out/duvonka}
[ -x "$program" ] || { echo "logsql.sh: the program is not built: run ./duvonka --build, or set DUVONKA"; exit 1; }
step=5
case "${1-}" in
  '') set -- "$top"/tests/logsql/*.test ;;
  all) step=1; set -- "$top"/tests/logsql/*.test ;;
  *) step=1; set -- "${@/#/$top/tests/logsql/}" ;;
esac
passed=0 failed=0 seen=0

# judge NAME: runs the program with the words on the rows, and compares all that it prints with the wanted lines
judge() {
  printf '%s' "$rows" | "$program" "${words[@]}" > "$work/got" 2> "$work/err"
  local status=$?
  cat "$work/err" >> "$work/got"
  [ $status = 0 ] || echo "status $status" >> "$work/got"
  if printf '%s' "$wanted" | cmp -s - "$work/got"; then
    passed=$((passed + 1))
  else
    failed=$((failed + 1))
    printf 'FAILED %s\nwanted:\n%sgot:\n' "$1" "$wanted"
    cat "$work/got"
  fi
}

# end_case: what is done with a case that has been read
end_case() {
  [ "$part" = wanted ] || { [ "$part" != query ] || wrong "no ---- after the query"; return 0; }
  [ -z "$clock" ] || return 0
  seen=$((seen + 1))
  [ $((seen % step)) = 0 ] || return 0
  words=(pipe)
  [ -z "$stream_fields" ] || words+=(--stream-fields "$stream_fields")
  words+=(-- "$query")
  judge "${file##*/}: $title"
}

wrong() {
  failed=$((failed + 1))
  echo "FAILED ${file##*/}:$number: $1"
}

# read_head LINE: reads a line outside rows and queries
read_head() {
  case "$1" in
    'case '*) title=${1#case } ;;
    'query '*) query=${1#query } wanted='' part=query ;;
    rows) rows='' part=rows ;;
    'stream_fields '*) stream_fields=${1#stream_fields } ;;
    'now '*) clock=${1#now } ;;
    '# '*) ;;
    *) wrong "no such line: $1" ;;
  esac
}

work=$(mktemp -d) || exit 1
trap 'rm -rf "$work"' EXIT
for file; do
  [ -r "$file" ] || { number=0; wrong "the file cannot be read"; continue; }
  part='head' rows='' stream_fields='' clock='' title='' number=0
  while IFS= read -r line || [ -n "$line" ]; do
    number=$((number + 1))
    if [ -z "$line" ]; then
      end_case; part='head'
    elif [ "$part" = wanted ]; then
      wanted+=$line$'\n'
    elif [ "$part" = query ]; then
      if [ "$line" = ---- ]; then part=wanted; else query+=$'\n'$line; fi
    elif [ "$part" = rows ] && [ "${line#query }" = "$line" ]; then
      rows+=$line$'\n'
    else
      read_head "$line"
    fi
  done < "$file"
  end_case
done
echo "$passed passed, $failed failed"
[ "$failed" = 0 ]
