#!/usr/bin/env bash
# Times `close` on ten million facts of 32 bytes, each of which forces four (`measure close`), and on a rule of two
# premises, over three million numbers on two sides that meet where both have one (`measure join`); beside them the
# same work in plain Rust over std's BTreeSet (bench/worklist.rs, rustc -O), where rustc is installed. Prints a row a
# program: facts, processor seconds, facts a second, and peak bytes of memory a fact.
set -eu
top=$(cd "$(dirname "$0")/.." && pwd)
work=$(mktemp -d)
trap 'rm -rf "$work"' EXIT
"$top/bench/build.sh" measure sample
ours=$top/crates/measure/out/measure
theirs=
if command -v rustc >/dev/null 2>&1; then
  rustc -O --edition 2021 -o "$work/worklist" "$top/bench/worklist.rs"
  theirs=$work/worklist
fi
python3 - "$ours" "$theirs" "${1:-10000000}" <<'PY'
import os, subprocess, sys

ours, theirs, size = sys.argv[1], sys.argv[2], int(sys.argv[3])


def measure(name, words, size):
    child = subprocess.Popen(words + [str(size)], stdout=subprocess.PIPE)
    facts = int(child.stdout.read())
    _, status, used = os.wait4(child.pid, 0)
    assert status == 0, name
    seconds = used.ru_utime + used.ru_stime
    print("%s: %d facts, %.1f s, %.0f facts a second, %.0f bytes a fact"
          % (name, facts, seconds, facts / seconds, used.ru_maxrss * 1024 / facts))
    return facts


for work, size in (("close", size), ("join", 3 * size // 10)):
    count = measure("measure " + work, [ours, work], size)
    if theirs:
        assert measure("plain Rust, " + work, [theirs, work], size) == count
    else:
        print("no rustc")
PY
