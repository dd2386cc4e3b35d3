#!/usr/bin/env bash
# Tries the vault over a directory: against the vault in memory, under strace, with system calls that fail, on a full
# disk, and beside a second program. Where strace is missing or cannot trace, it skips what needs it, and says so.
# Its last line is 'N passed, M failed, K skipped'.
# usage: tests/vault.sh [CALLS]     (2000 calls)
set -u
export LC_ALL=C.UTF-8
top=$(cd "$(dirname "$0")/.." && pwd)
vault=$top/crates/vault_stdio/out/vault_stdio
calls=${1:-2000}
[ -x "$vault" ] || { echo "vault.sh: $vault is not built: run rt ci vault_stdio first" >&2; exit 2; }
work=$(mktemp -d) || exit 2
trap 'rm -rf "$work"' EXIT
passed=0 failed=0 skipped=0
check() { # NAME WANTED GOT
  if [ "$2" = "$3" ]; then passed=$((passed + 1)); return; fi
  failed=$((failed + 1))
  printf 'FAILED %s\n  wanted: %s\n  got:    %s\n' "$1" "$2" "$3"
}

# The same calls on both vaults.
python3 - "$calls" >"$work/calls" <<'PYTHON'
import random, sys
random.seed(1)
for _ in range(int(sys.argv[1])):
    file = random.choice([0, 1, 2, 3, 7, 2 ** 63 - 1, 2 ** 64 - 1])
    at, size = random.choice([0, 0, 1, 5, 40, 200]), random.choice([0, 1, 2, 9, 64, 300])
    far = random.choice([at, 2 ** 63 - 5, 2 ** 63 - 1, 2 ** 63, 2 ** 64 - 1])
    print(random.choice([f"length {file}", f"read {file} {at} {size}", f"read {file} {far} {size}",
                         f"write {file} {at} {size} {random.randrange(251)}", f"write {file} {at} {size} 7",
                         f"write {file} 0 {size} 3", f"cut {file} {at}", f"sync {file}", f"remove {file}"]))
# A long write, and more files than are kept open.
print("write 5 0 3000000 1\nread 5 0 4000000\nsync 5")
for call in ("write {} 0 3 1", "length {}", "sync {}", "read {} 0 4"):
    for file in range(100, 180): print(call.format(file))
# Whatever came before, this file is there at the end.
print("write 3 0 5 1\nsync 3")
PYTHON
"$vault" memory <"$work/calls" >"$work/memory" 2>"$work/err"
"$vault" write "$work/same" <"$work/calls" >"$work/directory" 2>>"$work/err"
check "the same answers" "$(cksum <"$work/memory")" "$(cksum <"$work/directory")"
check "no fault" "faults 0" "$(tail -1 "$work/directory")"
check "nothing on standard error" "" "$(cat "$work/err")"
# What a program wrote, the next one reads, also one that only reads.
printf 'length %s\n' 0 1 2 3 7 9223372036854775807 18446744073709551615 5 >"$work/lengths"
"$vault" write "$work/same" <"$work/lengths" >"$work/again"
"$vault" read "$work/same" <"$work/lengths" >"$work/read_only"
check "a reader reads the same" "$(cat "$work/again")" "$(cat "$work/read_only")"
printf 'length 3\nread 3 0 1\nsync 3\ncut 3 0\nremove 3\n' | "$vault" write "$work/empty" >"$work/out"
check "only a write creates a file" "0 files, faults 0" "$(ls -A "$work/empty" | wc -l) files, $(tail -1 "$work/out")"

under_strace() {
# What is not durable yet when a sync is answered.
{ head -400 "$work/calls"; tail -325 "$work/calls"; } >"$work/few"
traced=openat,open,pwrite64,ftruncate,unlink,unlinkat,fsync,fdatasync,mkdir,mkdirat,write,close
strace -o "$work/trace" -e "trace=$traced" "$vault" write "$work/traced" <"$work/few" >/dev/null
python3 - "$work/trace" "$work/few" "$work/traced" >"$work/pending" <<'PYTHON'
import os, re, sys
trace, lines, directory = sys.argv[1:]
names, answers, dirty = {}, 0, set()
entry = False     # whether a name was made or removed since the directory was synced
wanted = [line.split() for line in open(lines)]
made, parent_synced, seen_change, longest = False, False, 0, 0
for event in open(trace):
    m = re.match(r'(\w+)\((.*)\)\s+= (-?\d+)', event)
    if not m or int(m[3]) < 0: continue
    call, words, value = m[1], m[2], int(m[3])
    if call in ("open", "openat"):
        path = re.search(r'"([^"]*)"', words)[1]
        names[value] = path
        if "O_CREAT" in words and path.startswith(directory + "/"): entry = True; dirty.add(path); seen_change += 1
    elif call in ("mkdir", "mkdirat"): made = True
    elif call in ("pwrite64", "ftruncate"):
        dirty.add(names[int(words.split(",")[0])]); seen_change += 1
        if call == "pwrite64": longest = max(longest, int(words.split(", ")[-2]))
    elif call == "close":
        if names.pop(int(words), None) in dirty: sys.exit(print(f"closed before it was synced: {event}"))
    elif call in ("unlink", "unlinkat"):
        path = re.search(r'"([^"]*)"', words)[1]
        dirty.discard(path); entry = True; seen_change += 1
    elif call in ("fsync", "fdatasync"):
        path = os.path.normpath(names[int(words)])
        dirty.discard(path)
        if path == directory: entry = False
        if made and directory.startswith(path + "/"): parent_synced = True
    elif call == "write" and words.startswith("1,"):
        for _ in range(words.split('"')[1].count("\\n")):
            if answers < len(wanted) and wanted[answers][0] == "sync":
                path = directory + "/" + wanted[answers][1]
                if path in dirty or entry: sys.exit(print(f"pending at line {answers + 1}: {wanted[answers]}"))
            answers += 1
if not (made and parent_synced): sys.exit(print("the directory is not synced into its parent"))
if longest != 2 ** 20: sys.exit(print(f"the longest piece has {longest} bytes"))
seen = answers > len(wanted) and seen_change > 50
print("nothing pending" if seen else f"only {answers} answers, {seen_change} changes")
PYTHON
check "each change is synced before the answer" "nothing pending" "$(cat "$work/pending")"

{ cat "$work/lengths"; printf 'read 3 0 9\nsync 3\n'; } >"$work/reading"
strace -o "$work/trace" "$vault" read "$work/same" <"$work/reading" >/dev/null
check "a reader opens for reading only" "" \
  "$(grep -E 'O_RDWR|O_WRONLY|O_CREAT|mkdir|pwrite|truncate|unlink' "$work/trace")"
check "a reader opens the file to read and to sync it" "2" "$(grep -c "openat.*$work/same/3" "$work/trace")"

# A reader syncs what an earlier program may have left, unless the file system has no sync.
for error in none EINVAL EROFS EIO; do
  inject=() wanted="done, faults 0"
  [ $error = none ] || inject=(-e "inject=fsync:error=$error")
  case $error in EROFS | EIO) wanted="failed, faults 1" ;; esac
  printf 'length 3\nsync 3\n' | strace -y -o "$work/trace" -e trace=fsync "${inject[@]}" "$vault" read "$work/same" \
    >"$work/out" 2>/dev/null
  check "a reader's sync: $error" "$wanted" "$(tail -2 "$work/out" | paste -sd, | sed 's/,/, /')"
  [ "$wanted" = "failed, faults 1" ] || check "a reader syncs the file and the directory: $error" "1 and 1" \
    "$(grep -c "fsync([0-9]*<$work/same/3>)" "$work/trace") and $(grep -c "fsync([0-9]*<$work/same>)" "$work/trace")"
done
strace -y -o "$work/trace" -e trace=fsync "$vault" write "$work/same" </dev/null >/dev/null
check "a directory that was there is synced into its parent" "1" "$(grep -c "fsync([0-9]*<$work>)" "$work/trace")"

# One system call that fails counts one fault, and the first says why. A signal counts none.
fail() { # NAME PATH SYSTEM_CALL WHEN ERROR LINES WANTED_FAULTS WANTED_REASON
  printf "$6" | strace -o "$work/trace" -e trace="$3" -P "$2" -e inject="$3:error=$5:when=$4" \
    "$vault" write "$work/broken" >"$work/out" 2>"$work/err"
  check "$1: a system call that failed" "yes" "$(grep -q INJECTED "$work/trace" && echo yes)"
  check "$1: faults" "faults $7" "$(tail -1 "$work/out")"
  check "$1: answers that failed" "$7" "$(grep -c '^failed$' "$work/out")"
  check "$1: reason" "$8" "$(grep -v '^strace: Requested path' "$work/err")"
}
io='Input/output error (os error 5)' space='No space left on device (os error 28)'
file=$work/broken/3 directory=$work/broken
fail "a length" "$file" statx 1 EIO 'length 3\nlength 3\n' 1 "$file: $io"
fail "a length and a signal" "$file" statx 1 EINTR 'length 3\nlength 3\n' 0 ""
fail "a length of an open file and a signal" "$file" statx 2 EINTR 'write 3 0 5 1\nlength 3\n' 0 ""
fail "a write" "$file" pwrite64 1 EIO 'write 3 0 5 1\nlength 3\n' 1 "$file: $io"
fail "a write without space" "$file" pwrite64 1 ENOSPC 'write 3 0 5 1\nlength 3\n' 1 "$file: $space"
fail "a write and a signal" "$file" pwrite64 1 EINTR 'write 3 0 5 1\nlength 3\n' 0 ""
fail "a read" "$file" pread64 1 EIO 'read 3 0 5\nlength 3\n' 1 "$file: $io"
fail "a read and a signal" "$file" pread64 1 EINTR 'read 3 0 5\nlength 3\n' 0 ""
fail "a cut" "$file" ftruncate 1 EIO 'cut 3 1\nlength 3\n' 1 "$file: $io"
fail "a cut and a signal" "$file" ftruncate 1 EINTR 'cut 3 1\nwrite 3 1 4 2\nlength 3\n' 0 ""
fail "a removal" "$file" unlink 1 EIO 'remove 3\nlength 3\n' 1 "$file: $io"
fail "a removal and a signal" "$file" unlink 1 EINTR 'write 3 0 5 1\nremove 3\nlength 3\n' 0 ""
fail "a sync" "$file" fsync 1 EIO 'write 3 0 5 1\nsync 3\nlength 3\n' 1 "$file: $io"
fail "a sync and a signal" "$file" fsync 1 EINTR 'write 3 0 5 1\nsync 3\nlength 3\n' 0 ""
fail "a sync after one that failed" "$file" fsync 1 EIO 'write 3 0 5 1\nsync 3\nsync 3\nsync 9\nlength 3\n' 3 \
  "$file: $io"
fail "a sync of a closed file, and the next" "$file" fsync 1 EIO 'sync 3\nsync 3\n' 2 "$file: $io"
fail "a sync of the directory" "$directory" fsync 1 EIO 'write 3 0 5 1\nsync 3\nlength 3\n' 1 "$directory: $io"
fail "a sync after one of the directory that failed" "$directory" fsync 1 EIO 'sync 3\nsync 3\n' 2 "$directory: $io"
fail "a sync of the parent" "$work" fsync 1 EIO 'length 3\n' 1 "$directory/..: $io"
fail "a parent that has no sync" "$work" fsync 1 EINVAL 'length 3\nsync 3\n' 0 ""
fail "a writer's sync that the system does not have" "$file" fsync 1 EINVAL 'write 3 0 5 1\nsync 3\n' 1 \
  "$file: Invalid argument (os error 22)"
fail "a writer's sync of the directory that the system does not have" "$directory" fsync 1 EINVAL \
  'write 3 0 5 1\nsync 3\n' 1 "$directory: Invalid argument (os error 22)"
fail "a parent that may not be opened" "$directory/.." openat 1 EACCES 'length 3\nsync 3\n' 0 ""
fail "a creation without space" "$work/broken/8" openat 2 ENOSPC 'write 8 0 5 1\nlength 3\n' 1 "$work/broken/8: $space"
fail "a creation with too many files" "$work/broken/8" openat 2 EMFILE 'write 8 0 5 1\nlength 8\n' 1 \
  "$work/broken/8: Too many open files (os error 24)"
fail "a length of an open file" "$file" statx 2 EIO 'write 3 0 5 1\nlength 3\n' 1 "$file: $io"
# 64 files are open, one of them goes, and two more come.
many="$(printf 'write %s 0 1 1\\n' $(seq 99 162))remove 99\\n$(printf 'write %s 0 1 1\\n' 163 164)"
fail "an early sync of the file that was opened first" "$work/broken/100" fsync 1 EIO "${many}sync 164\n" 2 \
  "$work/broken/100: $io"
fail "a sync that a writer is refused" "$file" fsync 1 EROFS 'write 3 0 5 1\nsync 3\n' 1 \
  "$file: Read-only file system (os error 30)"
fail "a sync of the directory and a signal" "$directory" fsync 1 EINTR 'sync 3\nsync 3\n' 0 ""
fail "an opening" "$file" openat 1 EIO 'read 3 0 5\nlength 3\n' 1 "$file: $io"
fail "an opening and a signal" "$file" openat 1 EINTR 'read 3 0 5\nlength 3\n' 0 ""
fail "two faults" "$file" pwrite64 1+ EIO 'write 3 0 5 1\nwrite 3 0 5 1\n' 2 "$file: $io"
fail "an opening of the directory" "$directory" openat 1 EIO 'length 3\n' 1 "$directory: $io"
fail "a lock" "$directory" flock 1 EIO 'length 3\nsync 3\n' 2 "$directory: $io"
fail "a lock and a signal" "$directory" flock 1 EINTR 'length 3\nsync 3\n' 0 ""
fail "the directory's creation" "$directory" mkdir 1 EIO 'length 3\n' 1 "$directory: $io"
fail "the directory's creation and a signal" "$directory" mkdir 1 EINTR 'length 3\n' 0 ""
# A directory that was made is removed again if it cannot be synced into its parent, so that the next start fails too.
fresh() { # NAME PATH SYSTEM_CALL ERROR
  echo 'length 3' | strace -o "$work/trace" -e trace="$3" -P "$2" -e inject="$3:error=$4" "$vault" write "$work/fresh" \
    >"$work/out" 2>"$work/err"
  check "$1" "failed, faults 1, removed" \
    "$(paste -sd, "$work/out" | sed 's/,/, /'), $([ -d "$work/fresh" ] || echo removed)"
  check "$1: the parent is named" "1" "$(grep -c "^$work/fresh/\.\.: " "$work/err")"
  check "$1: a system call that failed" "yes" "$(grep -q INJECTED "$work/trace" && echo yes)"
  rm -rf "$work/fresh"
}
fresh "a new directory whose parent has no sync" "$work" fsync EINVAL
fresh "a new directory whose parent's sync fails" "$work" fsync EIO
fresh "a new directory whose parent may not be opened" "$work/fresh/.." openat EACCES
}
printf 'write 3 0 5 1\nsync 3\n' | "$vault" write "$work/broken" >/dev/null
if ! command -v strace >/dev/null; then
  echo "skipped: strace is missing, so no call was traced and no system call failed"
  skipped=167
elif ! strace -o "$work/trace" true 2>/dev/null; then
  echo "skipped: strace cannot trace a program here, so no call was traced and no system call failed"
  skipped=167
else
  under_strace
fi

# A full disk: the write that passes the limit is torn, and the next one is refused.
full=$(printf 'write 1 0 3000 1\nlength 1\nwrite 1 1024 3000 5\nread 1 0 9\nsync 1\n' \
  | (trap '' XFSZ; ulimit -f 2; "$vault" write "$work/full" 2>"$work/err"))
check "a full disk" "$(printf 'failed\n2048\nfailed')" "$(printf '%s\n' "$full" | head -3)"
check "a full disk: reason" "$work/full/1: File too large (os error 27)" "$(cat "$work/err")"

# A second program on the same directory, and a directory that cannot be used.
mkfifo "$work/held"
"$vault" write "$work/alone" <"$work/held" >/dev/null &
exec 3>"$work/held"
for _ in $(seq 50); do [ -d "$work/alone" ] && break; sleep 0.1; done
sleep 0.5
second=$(echo 'length 3' | "$vault" write "$work/alone" 2>"$work/err")
check "a second program" "$(printf 'failed\nfaults 1')" "$second"
check "a second program: line" "$work/alone: another program uses this directory" "$(cat "$work/err")"
reader=$(echo 'length 3' | "$vault" read "$work/alone" 2>"$work/err")
check "a reader beside a writer" "$(printf 'failed\nfaults 1')" "$reader"
exec 3>&-
wait
missing=$(printf 'length 3\nread 3 0 1\n' | "$vault" read "$work/none" 2>"$work/err")
check "a missing directory" "$(printf 'failed\nfailed\nfaults 2')" "$missing"
check "a missing directory: line" "$work/none: No such file or directory (os error 2)" "$(cat "$work/err")"
# Readers share a directory with each other, and with no writer.
"$vault" read "$work/broken" <"$work/held" >/dev/null &
exec 3>"$work/held"
sleep 0.5
writer=$(echo 'length 3' | "$vault" write "$work/broken" 2>/dev/null)
check "a writer beside a reader" "$(printf 'failed\nfaults 1')" "$writer"
changed=$(printf 'write 3 0 1 1\nremove 3\ncut 3 0\nlength 3\nsync 3\n' | "$vault" read "$work/broken" 2>/dev/null)
check "a reader changes nothing" "$(printf 'failed\nfailed\nfailed\n5\ndone\nfaults 3')" "$changed"
exec 3>&-
wait

echo "$passed passed, $failed failed, $skipped skipped"
[ "$failed" = 0 ]
