#!/usr/bin/env bash
# Holds release/ against the program that `rt ci` has just left in crates/duvonka/out/. It builds nothing.
# usage: tests/release.sh
# release/ must be whole: two files, and the program that MANIFEST names. If it was made from the sources as they
# are here, it must also be the program that `rt ci` made, byte by byte, by the same toolchain. Otherwise this says
# that the release is older. The last line is 'N passed, M failed'.
set -u
export LC_ALL=C
cd "$(dirname "$(readlink -f "$0")")/.." || exit 1
program=crates/duvonka/out/duvonka
passed=0 failed=0

# judge NAME GOT WANTED
judge() {
  if [ "$2" = "$3" ]; then
    passed=$((passed + 1))
  else
    failed=$((failed + 1))
    printf 'FAILED %s: %q, not %q\n' "$1" "$2" "$3"
  fi
}

# manifest KEY: the value of a line of MANIFEST
manifest() { sed -n "s/^$1: //p" release/MANIFEST; }

# sum: the SHA-256 of standard input
sum() { sha256sum | cut -d ' ' -f 1; }

judge_whole() {
  local size
  judge "the files of release/" "$(find release -mindepth 1 | sort)" $'release/MANIFEST\nrelease/duvonka.gz'
  judge "the keys of MANIFEST" "$(cut -d : -f 1 release/MANIFEST | paste -sd ' ')" \
    "version toolchain sources program processor glibc"
  size=$(wc -c < release/duvonka.gz)
  judge "a size of at most 3 MB, as $size bytes are" "$((size <= 3000000))" 1
  judge "the sum of the program" "$(gzip -dc release/duvonka.gz | sum)" "$(manifest program)"
}

judge_against_build() {
  judge "the version" "$(manifest version)" "$(cat VERSION)"
  judge "the toolchain" "$(manifest toolchain)" "$(rt version)"
  judge "the program that rt ci made" "$(sum < $program)" "$(manifest program)"
}

if [ ! -e release ]; then
  echo "release.sh: release/ is not made yet"
else
  judge_whole
  if [ "$(manifest sources)" = "$(tools/source-sum)" ]; then
    judge_against_build
  else
    echo "release.sh: the release is older than the sources, so it is not compared with the program." \
      "tools/renew-release makes a new one"
  fi
fi

echo "$passed passed, $failed failed"
[ "$failed" = 0 ]
