#!/usr/bin/env bash
# Times reading and writing of names and descriptors: the program `measure`, and beside it the same work as
# a plain Rust loop (bench/texts.rs, rustc -O), where rustc is installed. Prints a row a piece of work:
# megabytes a second of each, and how many times slower ours is.
set -eu
top=$(cd "$(dirname "$0")/.." && pwd)
work=$(mktemp -d)
trap 'rm -rf "$work"' EXIT
"$top/bench/build.sh" measure sample
ours=$top/crates/measure/out/measure
theirs=
if command -v rustc >/dev/null 2>&1; then
  rustc -O --edition 2021 -o "$work/texts" "$top/bench/texts.rs"
  theirs=$work/texts
fi
python3 - "$ours" "$theirs" "${1:-300000}" <<'PY'
import subprocess, sys, time

ours, theirs, rounds = sys.argv[1:]


def rate(program, name):
    # the best of three runs
    best = 0.0
    for _ in range(3):
        begin = time.monotonic()
        out = subprocess.run([program, name, rounds], stdout=subprocess.PIPE, check=True).stdout
        best = max(best, int(out) / (time.monotonic() - begin) / 1e6)
    return best, int(out)


for name in ("read-names", "names", "read-descriptors", "descriptors"):
    our_rate, our_bytes = rate(ours, name)
    if theirs:
        their_rate, their_bytes = rate(theirs, name)
        assert our_bytes == their_bytes, name
        print("%s: %.0f MB/s, plain Rust %.0f MB/s, ratio %.2f" % (name, our_rate, their_rate, their_rate / our_rate))
    else:
        print("%s: %.0f MB/s, no rustc" % (name, our_rate))
PY
