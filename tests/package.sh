#!/usr/bin/env bash
# Makes the packages by tools/package, and installs the Debian package by dpkg in a root folder of its own, whose files
# are copies of this system's. It runs what it installed there by chroot, so it wants to be run as root.
# usage: tests/package.sh     (no part of .ci/run)
# The last line is 'N passed, M failed'.
set -u
export LC_ALL=C
top=$(cd "$(dirname "$(readlink -f "$0")")/.." && pwd)
work=$(mktemp -d) || exit 1
trap 'rm -rf "$work"' EXIT
root=$work/root
PATH=$PATH:/usr/sbin:/sbin
passed=0 failed=0

# judge NAME GOT WANTED
judge() {
  if [ "$2" = "$3" ]; then
    passed=$((passed + 1))
  else
    failed=$((failed + 1))
    printf 'FAILED %s: %q, not %q\n' "$1" "${2:0:600}" "$3"
  fi
}

# needs: what the program and the command that runs it need of a system
needs() {
  local tool
  for tool in dash dirname readlink cat; do
    command -v $tool
    ldd "$(command -v $tool)"
  done | grep -oE '/[^ ]+'
  ldd "$work/prefix/lib/duvonka/duvonka" | grep -oE '/[^ ]+'
}

# make_root: a system with a shell, three tools, and the libraries of libc6 and libgcc-s1, which dpkg knows as installed
make_root() {
  local file package
  mkdir -p "$root/var/lib/dpkg/"{info,updates,triggers} "$root/usr/bin" "$root/proc" "$root/dev"
  for file in $(needs | sort -u); do
    mkdir -p "$root${file%/*}"
    cp -L "$file" "$root$file"
  done
  [ -e "$root/bin" ] || ln -s usr/bin "$root/bin"
  [ -e "$root/bin/sh" ] || cp "$root$(command -v dash)" "$root/bin/sh"
  for package in libc6 libgcc-s1; do
    dpkg-query -s $package
    echo
    dpkg-query -L $package > "$root/var/lib/dpkg/info/$package:amd64.list"
  done > "$root/var/lib/dpkg/status"
}

# installed WORDS..: what the installed command prints, and its status
installed() {
  chroot "$root" /usr/bin/duvonka "$@" 2> "$work/error" < "$work/input"
  echo "status $?"
}

[ "$(id -u)" = 0 ] || { echo "package.sh: chroot wants root"; echo "0 passed, 1 failed"; exit 1; }
"$top/tools/package" "$work/made" > "$work/said" 2>&1 || { cat "$work/said"; echo "0 passed, 1 failed"; exit 1; }
head -n 1 "$work/said"
version=$(cat "$top/VERSION")
deb=$work/made/duvonka_${version}_amd64.deb
judge "the checksums" "$(cd "$work/made" && sha256sum -c --quiet SHA256SUMS 2>&1)" ""
"$top/tools/package" "$work/again" > /dev/null
judge "a second time the packages are the same" "$(cat "$work/again/SHA256SUMS")" "$(cat "$work/made/SHA256SUMS")"

mkdir "$work/prefix"
tar --strip-components=1 -C "$work/prefix" -xf "$work/made/duvonka-$version-x86_64.tar.gz"
judge "the tarball's command" "$("$work/prefix/bin/duvonka" --version)" "duvonka $version"
judge "the tarball's program" "$("$work/prefix/bin/duvonka" trial 0 0)" $'{"n":"0"}\n{"n":"0"}'

make_root
dpkg --root="$root" -i "$deb" > "$work/said" 2>&1
judge "dpkg -i" "$? $(dpkg --root="$root" -s duvonka | grep '^Status')" "0 Status: install ok installed"
judge "dpkg -V" "$(dpkg --root="$root" -V duvonka)" ""
echo '{"_msg":"an error"}' > "$work/input"
judge "--version" "$(installed --version)" "duvonka $version"$'\nstatus 0'
judge "--help" "$(installed --help)" "$(cat "$top/share/help.txt")"$'\nstatus 0'
judge "the program" "$(installed trial 0 0)" $'{"n":"0"}\n{"n":"0"}\nstatus 0'
judge "a query" "$(installed pipe 'error | fields _msg')" $'{"_msg":"an error"}\nstatus 0'
judge "a command line that is not valid" "$(installed x)" "status 2"
judge "the man page" "$(man -l "$root/usr/share/man/man1/duvonka.1.gz" 2>&1 | head -n 1 | tr -s ' ')" \
  "DUVONKA(1) User Commands DUVONKA(1)"
judge "the completion" "$(cat "$root/usr/share/bash-completion/completions/duvonka")" \
  "$(cat "$top/share/completion/duvonka.bash")"
judge "the unit runs the installed command" \
  "$(sed -n 's/^ExecStart=\([^ ]*\).*/\1/p' "$root/usr/lib/systemd/system/duvonka.service")" /usr/bin/duvonka
dpkg --root="$root" -r duvonka > "$work/said" 2>&1
judge "dpkg -r leaves nothing" "$? $(find "$root" -name '*duvonka*' | grep -v /var/)" "0 "
sed -i '/^Package: libc6$/,/^$/s/^Version: .*/Version: 2.30-1/' "$root/var/lib/dpkg/status"
dpkg --root="$root" -i "$deb" > "$work/said" 2>&1
judge "an older C library is refused" "$? $(grep -c 'duvonka depends on libc6' "$work/said")" "1 1"

echo "$passed passed, $failed failed"
[ "$failed" = 0 ]
