#!/usr/bin/env bash
# Inputs that a sender may choose so that work or memory grows faster than they do. Each test gives two of them to the
# built program, each to a server of its own, and compares the processor time that they take:
# - many lines with a list of names, and the same lines with a hundred times the names: at most three times the time;
# - one input, and one four times as long: at most 6.8 times the time, which is 2.6 times for twice the input.
# At its peak a server has at most 64 MB, or 20 times the bytes of the input where that is more. Some tests give one
# input, for its peak alone.
# usage: tests/hostile.sh     (the environment variable DUVONKA is the path of another build)
# Its last line is 'N passed, M failed, K skipped'.
set -u
export LC_ALL=C
top=$(cd "$(dirname "$0")/.." && pwd)
program=${DUVONKA:-$top/crates/duvonka/out/duvonka}
# fail_all WHY: nothing can be tested
fail_all() {
  echo "FAILED all: $1"
  echo "0 passed, 1 failed, 0 skipped"
  exit 1
}

for tool in mktemp timeout awk getconf; do
  command -v "$tool" > /dev/null || fail_all "there is no $tool"
done
[ -x "$program" ] || fail_all "the program is not built: run ./duvonka --build, or set DUVONKA to the path of one"
[ -r /proc/self/stat ] || fail_all "there is no /proc"
work=$(mktemp -d) || exit 1
# shellcheck source=tests/serving.sh
. "$top/tests/serving.sh"
trap 'stop_servers; rm -rf "$work"' EXIT
trap 'exit 1' INT TERM
passed=0 failed=0
ticks=$(getconf CLK_TCK)

# Times below this, in milliseconds, say nothing.
SHORTEST=20
# The memory that a server may always have, in KiB.
MOST=65536

# falling COUNT: one line with this many members, whose names fall
falling() {
  awk -v n="$1" 'BEGIN {
    printf "{"; for (i = n; i > 1; i--) printf "\"f%07d\":\"1\",", i
    print "\"f\":\"1\"}" }'
}

# nested COUNT: one line with a name of this many bytes, and a tenth as many members in it
nested() {
  awk -v n="$1" 'BEGIN {
    printf "{\""; for (i = 0; i < n; i++) printf "a"; printf "\":{"
    for (i = 1; i < n / 10; i++) printf "\"b%d\":\"1\",", i
    print "\"b\":\"1\"}}" }'
}

# tiny COUNT: this many lines of one member
tiny() { awk -v n="$1" 'BEGIN { for (i = 0; i < n; i++) print "{\"a\":1}" }'; }

# three COUNT: this many lines of three members
three() { awk -v n="$1" 'BEGIN { for (i = 0; i < n; i++) print "{\"a\":\"b\",\"c\":\"d\",\"e\":\"f\"}" }'; }

# padded COUNT: this many lines without a member, with 300 blanks in each
padded() { awk -v n="$1" 'BEGIN { for (i = 0; i < n; i++) printf "{%300s}\n", "" }'; }

# empty COUNT: this many lines without a member
empty() { awk -v n="$1" 'BEGIN { for (i = 0; i < n; i++) print "{}" }'; }

# last COUNT: this many lines with a member whose name is above the others
last() { awk -v n="$1" 'BEGIN { for (i = 0; i < n; i++) print "{\"zz\":1}" }'; }

# names COUNT: a list of this many names, none of them that of a member
names() { awk -v n="$1" 'BEGIN { for (i = 1; i < n; i++) printf "%X,", i; printf "x" }'; }

# added COUNT VALUE: a list of this many fields with this value, whose names fall
added() { awk -v n="$1" -v value="$2" 'BEGIN { for (i = n; i > 0; i--) printf "%s%X=%s", i < n ? "," : "", i, value }'; }

# value SIZE: a value of this many bytes
value() { printf "%${1}s" "" | tr ' ' v; }

# used ID: prints the processor time of a process so far in milliseconds, and its peak of memory in KiB
used() {
  awk -v ticks="$ticks" '
    FILENAME ~ /stat$/ { sub(/^.*\) /, ""); time = ($12 + $13) * 1000 / ticks }
    /^VmHWM:/ { peak = $2 }
    END { printf "%d %d\n", time, peak }' "/proc/$1/stat" "/proc/$1/status"
}

# insert ARGUMENTS FILE: sends a file to the server that was started last, and prints its reply
insert() {
  timeout 120 bash -c 'exec 3<> "/dev/tcp/127.0.0.1/$1" && {
    printf "POST /insert/jsonline?%s HTTP/1.1\r\nConnection: close\r\nContent-Length: %d\r\n\r\n" "$2" "$4"
    cat "$3"
  } >&3 && exec cat <&3' insert "$http" "$1" "$2" "$(wc -c < "$2")" 2> /dev/null
}

# spend ARGUMENTS FILE REPLY: gives a file to a server of its own, whose reply has to have this. Sets took to the time
# that it takes in milliseconds, and peak to the most memory of the server in KiB; or why, if it fails
spend() {
  local before after
  start_server 1 || {
    why='the server did not start'
    return 1
  }
  before=$(used "$server") && insert "$1" "$2" > "$work/reply" && after=$(used "$server") || after=''
  stop_server
  if [ -z "$after" ] || ! grep -q -e "$3" "$work/reply"; then
    why="there is no reply with '$3'"
    return 1
  fi
  took=$((${after% *} - ${before% *})) peak=${after#* }
}

# judge NAME: counts a test, which failed if why says so
judge() {
  if [ -z "$why" ]; then
    passed=$((passed + 1))
    echo "$1: $one ms, then $took ms and $peak KiB"
  else
    failed=$((failed + 1))
    echo "FAILED $1: $why"
  fi
}

# compare TENTHS FILE: sets why if the second of two inputs, which is this one, took more than so many tenths of the time
# of the first, or too much memory
compare() {
  local least=$((one > SHORTEST ? one : SHORTEST)) most=$(($(wc -c < "$2") * 20 / 1024))
  [ "$took" -le $(($1 * least / 10)) ] || why="$one ms, then $took ms, which is more than $1 tenths of it"
  most=$((most > MOST ? most : MOST))
  [ "$peak" -le "$most" ] || why="$peak KiB, above $most"
}

# listed NAME ARGUMENT: judges what many lines take with a list of 39 names, and with one of 3,900
listed() {
  local one=0 took peak why='' reply='"accepted":"150000"'
  tiny 150000 > "$work/lines"
  spend "$2=$(names 39)" "$work/lines" "$reply" && one=$took \
    && spend "$2=$(names 3900)" "$work/lines" "$reply" && compare 30 "$work/lines"
  judge "$1"
}

# adds NAME SIZE FEW MANY REPLY: judges what this many lines take with a short list of fields to add, and with a long
# one, where the request may run out of memory but has to answer soon
adds() {
  local one=0 took peak why=''
  empty "$2" > "$work/lines"
  spend "extra_fields=$3" "$work/lines" HTTP/1.1 && one=$took \
    && spend "extra_fields=$4" "$work/lines" "$5" && compare 150 "$work/lines"
  judge "$1"
}

# grows NAME ARGUMENTS MAKER SIZE REPLY: judges what an input of this size takes, and one of four times the size
grows() {
  local one=0 took peak why=''
  "$3" "$4" > "$work/one"
  "$3" $((4 * $4)) > "$work/four"
  spend "$2" "$work/one" "$5" && one=$took && spend "$2" "$work/four" "$5" && compare 68 "$work/four"
  judge "$1"
}

# keeps NAME ARGUMENTS MAKER SIZE REPLY MOST: judges whether a server has at most this many KiB for such an input
keeps() {
  local one=0 took=0 peak=0 why=''
  "$3" "$4" > "$work/lines"
  spend "$2" "$work/lines" "$5" && [ "$peak" -gt "$6" ] && why="$peak KiB, above $6"
  judge "$1"
}

listed "names to ignore" ignore_fields
listed "names of the stream" _stream_fields
listed "names of the message" _msg_field
grows "members in falling order" "" falling 12000 ManyFields
grows "members in falling order, with names of the message" "_msg_field=$(names 3900)" falling 12000 ManyFields
grows "one long outer name" "" nested 60000 NameLong
grows "one long outer name, with names to ignore" "ignore_fields=a,b&_stream_fields=b" nested 60000 NameLong
grows "more fields to add than a row may have" "extra_fields=$(added 2500 1)" last 500 ManyFields
grows "fields to add" "extra_fields=$(added 900 1)" last 90 '"accepted":"[1-9]'
adds "a hundred times the fields to add, more than a row may have" 400000 "$(added 25 1)" "$(added 2500 1)" 507
adds "forty times the fields to add" 400000 "$(added 25 1)" "$(added 1000 1)" 507
adds "a hundred times the bytes to add" 400000 "f=$(value 150)" "f=$(value 15000)" 507
grows "fields to add, in rows of more than the memory for them" "extra_fields=$(added 900 1)" empty 5000 507
grows "labels that are added" "extra_fields=$(added 800 1)&_stream_fields=$(names 800)" empty 20000 507
grows "fields to add, in rows that are too much for a batch" "extra_fields=$(added 250 "$(printf '0%.0s' {1..50})")" \
  empty 5300 Large
grows "a large field to add, in rows that are too much for a batch" "extra_fields=f=$(value 15000)" empty 8000 Large
# Their rows count nearly 14 times their bytes.
grows "lines of short members" "" three 100000 '"accepted":"[14]00000"'
keeps "as many short lines as the bound lets through" "" tiny 236294 '"accepted":"236294"' "$MOST"
keeps "one short line more than the bound lets through" "" tiny 236295 507 "$MOST"
keeps "lines of one label" _stream_fields=a tiny 102000 '"accepted":"102000"' "$MOST"
# Rows are kept only until they weigh too much for a batch.
keeps "rows that are three times too much for a batch" "extra_fields=f=$(value 2000)" padded 100000 Large 150000
# A long name that is asked for has all long names read, up to 64 times the bytes of the line; then memory runs out.
grows "one long outer name, with a long name to ignore" "ignore_fields=$(printf 'b%.0s' {1..129})" nested 60000 HTTP/1.1
echo "$passed passed, $failed failed, 0 skipped"
[ "$failed" = 0 ]
