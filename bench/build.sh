#!/usr/bin/env bash
# Proves and builds a program where it is missing or older than the sources.
#
# build.sh PROGRAM WORD..: PROGRAM names a folder of crates/. Once it is built, it is run once with the words,
# and nothing is said of that.
set -eu
top=$(cd "$(dirname "$0")/.." && pwd)
name=$1
shift
program=$top/crates/$name/out/$name
log=$top/crates/$name/out/build.log

stale() {
  [ ! -x "$program" ] && return 0
  [ -n "$(find "$top/crates" "$top/crates.txt" -path '*/out' -prune -o -type f -newer "$program" -print -quit)" ]
}

stale || exit 0
echo "$name: proving and building the program; from nothing this takes minutes" >&2
mkdir -p "$top/crates/$name/out"
rm -f "$program"
(cd "$top/crates/$name" && rt run -- "$@" >/dev/null 2>"$log") || true
if [ ! -x "$program" ]; then
  cat "$log" >&2
  echo "$name: the program was not built" >&2
  exit 70
fi
touch "$program"
