#!/usr/bin/env bash
# Shows that a turn of the ticket lock has to be left: a copy of the lock's callers, in which one turn is dropped, does not
# compile. Its status is 0 where the compiler refuses the copy for that.
set -u
export LC_ALL=C.UTF-8
top=$(cd "$(dirname "$0")/.." && pwd)
work=$(mktemp -d) || exit 2
trap 'rm -rf "$work"' EXIT
mkdir "$work/crates" || exit 2
for crate in turn_lock turn_lock_tests; do
  (cd "$top/crates" && tar cf - --exclude=out "$crate") | (cd "$work/crates" && tar xf -) || exit 2
done
cp "$top/HANDLES" "$work/"
printf '%s\n' 'turn_lock: atomic_table' 'turn_lock_tests: turn_lock' > "$work/crates.txt"

# The turn of `status` is dropped.
callers=$work/crates/turn_lock_tests/src/turns.rt
sed -i '/^pub fn status/,/^}/{/^    turn\.leave();$/d}' "$callers"
if cmp -s "$callers" "$top/crates/turn_lock_tests/src/turns.rt"; then
  echo "lock_drop.sh: there is no turn to drop" >&2
  exit 2
fi

(cd "$work/crates/turn_lock_tests" && rt check > "$work/log" 2>&1)
if grep 'error\[linear-value-let-go\]: `turn` is let go' "$work/log"; then
  exit 0
fi
echo "lock_drop.sh: a dropped turn was not refused" >&2
tail -n 40 "$work/log" >&2
exit 1
