#!/usr/bin/env bash
# Times `averroes calls` on classes of many methods, on n, 2n and 4n of them, beside `javap -p -c` on the
# same file where a JDK is installed. Prints a row a file: family, n, bytes, lines that were printed,
# processor seconds and peak memory of each.
set -eu
top=$(cd "$(dirname "$0")/.." && pwd)
work=$(mktemp -d)
trap 'rm -rf "$work"' EXIT
"$top/averroes" calls "$work" Missing >/dev/null 2>&1 || true
program=$top/crates/averroes/out/averroes

measure() {
  # processor seconds and peak kilobytes of a command whose output goes nowhere
  python3 - "$@" <<'PY'
import resource, subprocess, sys
subprocess.run(sys.argv[1:], stdout=subprocess.DEVNULL, stderr=subprocess.DEVNULL)
used = resource.getrusage(resource.RUSAGE_CHILDREN)
print("%.2f s %d KiB" % (used.ru_utime + used.ru_stime, used.ru_maxrss))
PY
}

row() {
  python3 "$top/bench/make_class.py" "$1" "$2" "$work/Big.class"
  bytes=$(wc -c <"$work/Big.class")
  ours=$(measure "$program" calls "$work" Big)
  lines=$("$program" calls "$work" Big | wc -l)
  theirs="no JDK"
  if command -v javap >/dev/null 2>&1; then
    theirs=$(measure javap -p -c "$work/Big.class")
  fi
  echo "$1 n=$2 bytes=$bytes lines=$lines averroes: $ours javap: $theirs"
}

for n in 5000 10000 20000; do row chain "$n"; done
for n in 5000 10000 20000; do row fan "$n"; done
for n in 250 500 1000; do row flow "$n"; done
for kilobytes in 1000 4000 16000; do row wide "$kilobytes"; done
