#!/usr/bin/env bash
# Tries the launcher ./duvonka, tests/release.sh and tools/renew-release in small clones of their own, with
# stand-ins for the program and for rt.
# usage: tests/launcher.sh
# It proves and builds nothing. The last line is 'N passed, M failed'.
set -u
export LC_ALL=C.UTF-8
top=$(cd "$(dirname "$(readlink -f "$0")")/.." && pwd)
work=$(mktemp -d) || exit 1
trap 'rm -rf "$work"' EXIT
export HOME=$work/home GIT_CONFIG_GLOBAL=/dev/null
unset XDG_CACHE_HOME
cache=$HOME/.cache/duvonka
passed=0 failed=0

# judge NAME GOT WANTED
judge() {
  if [ "$2" = "$3" ]; then
    passed=$((passed + 1))
  else
    failed=$((failed + 1))
    printf 'FAILED %s: %q, not %q\n' "$1" "${2:0:600}" "$3"
  fi
}

# make_rt: a stand-in for rt. It builds a program that names the source that it was built from, and notes each call
make_rt() {
  mkdir -p "$work/bin"
  cat > "$work/bin/rt" << RT
#!/usr/bin/env bash
[ "\$1" != version ] || { echo a stand-in for rt; exit 0; }
echo \$\$ > "$work/rt_id"
echo "\$*" >> "$work/calls"
if [ "\$1" = try ]; then echo "run=stand-in" >&2; shift 4; echo "unproved: \$*"; exit 3; fi
ls -A . crates crates/* > "$work/copied"
echo 'rt: low proved'
while [ -e "$work/waits" ]; do sleep 0.1; done
[ ! -e "$work/refuses" ] || { echo 'rt: duvonka NOT PROVED'; echo '1 passed, 1 failed'; exit 1; }
mkdir -p crates/duvonka/out
cat > crates/duvonka/out/duvonka << PROGRAM
#!/bin/sh
# GLIBC_2.2.5 GLIBC_2.34
case "\\\$1" in
  trial) printf '{"n":"0"}\n{"n":"0"}\n' ;;
  *) echo "built from \$(cat crates/duvonka/src/main.rt): \\\$*" ;;
esac
PROGRAM
chmod +x crates/duvonka/out/duvonka
echo 'rt: duvonka proved'
RT
  chmod +x "$work/bin/rt"
}

# without_rt, with_rt: the PATH
without_rt() { PATH=$plain; }
with_rt() { PATH=$work/bin:$plain; }
plain=
IFS=: read -ra folders <<< "$PATH"
for it in "${folders[@]}"; do
  [ -x "$it/rt" ] || plain=$plain:$it
done
plain=${plain#:}

# make_clone NAME: a clone with one library below the program, one crate beside it, and no release
make_clone() {
  clone=$work/$1
  mkdir -p "$clone/tools" "$clone/tests" "$clone/crates/"{duvonka,low,beside}/src "$clone/crates/low/must-fail"
  cp "$top/duvonka" "$clone/"
  cp "$top/tools/source-sum" "$top/tools/renew-release" "$clone/tools/"
  cp "$top/tests/release.sh" "$clone/tests/"
  cp -r "$top/share" "$top/VERSION" "$top/.gitignore" "$clone/"
  printf '# lowest first\nlow:\nbeside: low\nduvonka: low\n' > "$clone/crates.txt"
  echo 'Handles allowed: none.' > "$clone/HANDLES"
  echo one > "$clone/crates/duvonka/src/main.rt"
  echo low > "$clone/crates/low/src/lib.rt"
  echo beside > "$clone/crates/beside/src/lib.rt"
  git -C "$clone" init -q
  commit sources
}

# commit MESSAGE
commit() {
  git -C "$clone" add -A
  git -C "$clone" -c user.name=test -c user.email=test@localhost commit -qm "$1"
}

# add_release: builds the program in the clone, renews the release and commits it, and removes the program again
add_release() {
  with_rt
  (cd "$clone" && rt ci > /dev/null && touch -d '1 hour' crates/duvonka/out/duvonka)
  renewed=$("$clone/tools/renew-release" 2>&1) || echo "$renewed"
  commit release
  rm -r "$clone/crates/duvonka/out" "$work/calls"
}

# run WORDS..: runs the launcher of the clone; its output and status stand in $got, its error text in $said
run() {
  got=$("$clone/duvonka" "$@" 2> "$work/said" < /dev/null)
  got="$got, status $?"
  said=$(cat "$work/said")
}

# calls: how often rt was called to build
calls() { grep -c '^ci$' "$work/calls" 2> /dev/null; }

# has NAME PART: whether the error text has this part
has() { case "$said" in *"$2"*) judge "$1" yes yes ;; *) judge "$1" "$said" "*$2*" ;; esac; }

by_release() {
  local before hint='./duvonka --build proves and builds it here'
  make_clone released
  add_release
  without_rt
  before=$(date +%s%N)
  run pipe error
  # (within a second on a machine that does nothing else)
  judge "a fresh clone without rt answers within ten seconds" "$((($(date +%s%N) - before) / 10000000000))" 0
  judge "it runs the release" "$got" "built from one: pipe error, status 0"
  judge "it says once that the program comes from elsewhere" "$said" \
    "duvonka: this is the program of release/, which was proved and built elsewhere; $hint"
  run pipe error
  judge "the second time it says nothing" "$got $said" "built from one: pipe error, status 0 "
  judge "the release was unpacked under its sum" "program: $(ls "$cache/release")" \
    "$(grep '^program: ' "$clone/release/MANIFEST")"
  rm -r "$cache/release"
  "$clone/duvonka" one > "$work/one" 2> /dev/null < /dev/null &
  run two
  wait $!
  judge "two that unpack it at once" "$(cat "$work/one"), $got" "built from one: one, built from one: two, status 0"
  judge "one copy of it is kept" "$(find "$cache/release" -mindepth 1 -maxdepth 1 | grep -c .)" 1
  touch "$clone/crates/low/src/lib.rt"
  echo other > "$clone/crates/beside/src/lib.rt"
  run a
  judge "times, and crates that the program does not need, do not count" "$got" "built from one: a, status 0"
  run --build
  judge "--build without rt" "$got" ", status 125"
  with_rt
  run --build
  judge "--build with rt" "$got $(calls)" ", status 0 1"
  has "it compares what it built with the release" ", and is the one in release/, byte by byte"
  run pipe error
  judge "the program that was built here comes first" "$got $said" "built from one: pipe error, status 0 "
  run --build
  judge "--build does nothing if it was built" "$got $(calls)" ", status 0 1"
  has "and says so" "is newer than its sources"
  run --clean
  judge "--clean leaves nothing below the cache" "$got $(ls "$HOME/.cache")" ", status 0 "
}

by_damage() {
  local kept=$work/kept
  make_clone damaged
  add_release
  cp -r "$clone/release" "$kept"
  without_rt
  head -c 100 "$kept/duvonka.gz" > "$clone/release/duvonka.gz"
  run a
  judge "a release that was cut" "$got" ", status 125"
  has "it cannot be unpacked" "release/duvonka.gz cannot be unpacked: "
  gzip -dc "$kept/duvonka.gz" | sed 's/built/bnilt/' | gzip -9n > "$clone/release/duvonka.gz"
  run a
  judge "a release with another program" "$got" ", status 125"
  has "it is not that of MANIFEST" "release/duvonka.gz is damaged: it is not the program that release/MANIFEST names"
  printf '#!/bin/sh\necho no library; exit 1\n' > "$work/other"
  gzip -9n < "$work/other" > "$clone/release/duvonka.gz"
  sed -i "s/^program: .*/program: $(sha256sum < "$work/other" | cut -d ' ' -f 1)/" "$clone/release/MANIFEST"
  run a
  judge "a release that does not run here" "$got" ", status 125"
  has "it says what the program said" "the release does not run here: no library"
  cp "$kept"/* "$clone/release/"
  sed -i 's/^processor: .*/processor: other/' "$clone/release/MANIFEST"
  run a
  has "a release for another processor" "duvonka: the release is for another processor, other, and rt, which proves"
  judge "what was unpacked of them is removed" "$(ls "$cache/release")" ""
  with_rt
  run a
  judge "with rt it builds instead" "$got $(calls)" "built from one: a, status 0 1"
  has "and says why" "duvonka: the release is for another processor, other"
}

by_change() {
  local commit
  make_clone changed
  add_release
  commit=$(git -C "$clone" log -1 --format=%h)
  echo two > "$clone/crates/duvonka/src/main.rt"
  commit change
  without_rt
  run a
  judge "a release that is older than the sources, without rt" "$got" ", status 125"
  has "it names the commit of the release" "duvonka: the release belongs to commit $commit: git checkout $commit"
  git clone -q --depth 1 "file://$clone" "$work/shallow"
  said=$("$work/shallow/duvonka" a 2>&1 < /dev/null)
  has "a clone without history" "duvonka: the release belongs to an earlier commit; after git fetch --unshallow"
  judge "the release test passes an older release" "$("$clone/tests/release.sh" | tail -n 1)" "4 passed, 0 failed"
  with_rt
  run a
  judge "with rt it builds" "$got $(calls)" "built from two: a, status 0 1"
  has "it says how long that takes, and how much disk" "minutes of processor time"
  judge "the copy has the needed crates, and no must-fail edits" "$(paste -sd ' ' "$work/copied")" \
    ".: .git HANDLES crates crates.txt  crates: duvonka low  crates/duvonka: src  crates/low: src"
  judge "nothing of the build stays below the cache" "$(find "$cache" -mindepth 1 -maxdepth 1 ! -name release)" ""
  echo three > "$clone/crates/duvonka/src/main.rt"
  touch "$work/refuses"
  run a
  rm "$work/refuses"
  judge "what is not proved is not run" "$got" ", status 125"
  has "it shows what rt said" "rt: duvonka NOT PROVED"
  run --unproved a
  judge "--unproved" "$got" "unproved: a, status 3"
  judge "it says that no proof was made, and not what rt says of its own run" "$said" \
    "duvonka: unproved: this run shows what the program does, and no proof was made"
}

by_two() {
  local first second
  make_clone two
  with_rt
  rm -f "$work/calls"
  touch "$work/waits"
  "$clone/duvonka" first > "$work/first" 2> "$work/first_said" < /dev/null &
  first=$!
  for _ in {1..1200}; do [ ! -e "$work/calls" ] || break; sleep 0.05; done
  "$clone/duvonka" --clean 2> "$work/clean_said"
  said=$(cat "$work/clean_said")
  has "--clean leaves the copy of a running build" "a launcher is building in "
  "$clone/duvonka" second > "$work/second" 2> "$work/said" < /dev/null &
  second=$!
  for _ in {1..300}; do
    [ ! -s "$work/said" ] || break
    sleep 0.1
  done
  rm "$work/waits"
  wait "$first"
  wait "$second"
  judge "two launchers at once: the first" "$(cat "$work/first")" "built from one: first"
  judge "the second waits, and does not build" "$(cat "$work/second") $(calls)" "built from one: second 1"
  judge "it says so" "$(cat "$work/said")" "duvonka: another launcher is building this program; waiting for it"
  judge "nothing of both stays below the cache" "$(find "$cache" -mindepth 1 -maxdepth 1 ! -name release)" ""
  rm "$work/calls"
}

by_end() {
  local first
  make_clone ended
  touch "$work/waits"
  rm -f "$work/calls"
  "$clone/duvonka" first > "$work/first" 2> "$work/first_said" < /dev/null &
  first=$!
  for _ in {1..1200}; do [ ! -e "$work/calls" ] || break; sleep 0.05; done
  kill "$first"
  wait "$first"
  judge "a launcher that a signal ends: status" $? 130
  judge "rt ends with it" "$(kill -0 "$(cat "$work/rt_id")" 2>&1 | grep -c 'No such process')" 1
  judge "and the copy is removed" "$(find "$cache" -mindepth 1 -maxdepth 1 ! -name release)" ""
  rm "$work/waits"
  run next
  judge "the next one builds" "$got" "built from one: next, status 0"
}

# fails NAME WANTED: the release test of the clone fails with this line
fails() {
  got=$("$clone/tests/release.sh" 2>&1)
  judge "$1: status" $? 1
  said=$got
  has "$1" "$2"
}

by_release_test() {
  make_clone tested
  judge "no release yet" "$("$clone/tests/release.sh")" $'release.sh: release/ is not made yet\n0 passed, 0 failed'
  add_release
  with_rt
  fails "without the program of rt ci" "FAILED the program that rt ci made"
  (cd "$clone" && rt ci > /dev/null)
  judge "the release of the same sources" "$("$clone/tests/release.sh")" "7 passed, 0 failed"
  echo >> "$clone/crates/duvonka/out/duvonka"
  fails "another program" "FAILED the program that rt ci made"
  sed -i 's/^toolchain: .*/toolchain: other/' "$clone/release/MANIFEST"
  fails "another toolchain" "FAILED the toolchain: other, not a\\ stand-in\\ for\\ rt"
  touch "$clone/release/more"
  fails "another file" "FAILED the files of release/"
  rm "$clone/release/more"
  echo x > "$clone/release/duvonka.gz"
  fails "a damaged file" "FAILED the sum of the program"
}

# refuses NAME WANTED: tools/renew-release refuses
refuses() {
  said=$("$clone/tools/renew-release" 2>&1)
  judge "$1: status" $? 1
  has "$1" "$2"
}

by_renewal() {
  make_clone renewed
  with_rt
  refuses "no program" "crates/duvonka/out/duvonka is not there: run rt ci"
  (cd "$clone" && rt ci > /dev/null)
  touch -d '1 hour' "$clone/crates/low/src/lib.rt"
  refuses "an older program" "crates/low/src/lib.rt is newer than crates/duvonka/out/duvonka: run rt ci"
  touch -d '2 hours' "$clone/crates/duvonka/out/duvonka"
  echo > "$clone/new"
  refuses "a file that is not committed" "?? new"
  rm "$clone/new"
  said=$("$clone/tools/renew-release" 2>&1)
  has "a renewal" "renew-release: release/ is staged"
  judge "the release names the toolchain, the processor and the version of the C library" \
    "$(sed -n 's/^\(toolchain\|processor\|glibc\): //p' "$clone/release/MANIFEST" | paste -sd ,)" \
    "a stand-in for rt,x86-64-v2,2.34"
  judge "both files are staged" "$(git -C "$clone" diff --cached --name-only | paste -sd ' ')" \
    "release/MANIFEST release/duvonka.gz"
  commit release
  judge "a second renewal changes nothing" "$("$clone/tools/renew-release" | tail -n 1)" \
    "renew-release: release/ is as it was"
}

by_words() {
  clone=$top
  run --version
  judge "--version" "$got" "duvonka $(cat "$top/VERSION"), status 0"
  run --help
  judge "--help" "$got" "$(cat "$top/share/help.txt"), status 0"
  judge "help, man page and completion are made from share/commands" "$("$top/tools/help-texts" --check 2>&1; echo "status $?")" "status 0"
  judge "share/commands has the commands and options of the program" \
    "$("$top/tools/help-texts" --words | paste -sd ' ')" \
    "$(cat "$top"/crates/command_line/src/*.rt | grep -oE '(Command::new|option)\(alloc, "[a-z-]+"' |
      sed 's/option(alloc, "/--/; s/.*"\([a-z]\)/\1/; s/"$//' | grep -vx duvonka | LC_ALL=C sort -u | paste -sd ' ')"
  # shellcheck source=share/completion/duvonka.bash
  . "$top/share/completion/duvonka.bash"
  COMP_WORDS=(duvonka serve --w) COMP_CWORD=2
  _duvonka duvonka --w serve
  judge "completion" "${COMPREPLY[*]}" --workers
  COMP_WORDS=(duvonka load --) COMP_CWORD=2
  _duvonka duvonka -- load
  judge "completion of an option of two commands" "${COMPREPLY[*]}" "--dir --stream-fields"
  COMP_WORDS=(duvonka query --dir '') COMP_CWORD=3
  _duvonka duvonka '' --dir
  judge "the value of an option is not completed" "${COMPREPLY[*]}" ""
}

make_rt
by_words
by_release
by_damage
by_change
by_two
by_end
by_release_test
by_renewal

echo "$passed passed, $failed failed"
[ "$failed" = 0 ]
