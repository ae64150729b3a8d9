#!/usr/bin/env bash
# Times decoding: the program `measure` decodes the codes of all methods of the class files below a
# folder. Then one code of n bytes for rising n up to 65,535, the most that a code may have, with 10,000 handlers.
# Prints instructions by the second, and of a single code microseconds, both of processor time, and the peak
# memory.
#
# decoding.sh FOLDER [ROUNDS]
set -eu
top=$(cd "$(dirname "$0")/.." && pwd)
work=$(mktemp -d)
trap 'rm -rf "$work"' EXIT
"$top/bench/build.sh" measure sample
for n in 16383 32767 65535; do
  python3 "$top/bench/make_class.py" codes "$n" "$work/codes$n.class"
done
python3 - "$top/crates/measure/out/measure" "$1" "${2:-1000}" "$work" <<'PY'
import os, shutil, subprocess, sys

program, folder, rounds, work = sys.argv[1], sys.argv[2], int(sys.argv[3]), sys.argv[4]


def run(times, path):
    # processor seconds, peak memory where the command `time` is installed, and the counts that were printed
    timed = ["time", "-f", "%M"] if shutil.which("time") else []
    before = os.times()
    child = subprocess.run(timed + [program, "decode", str(times), path], stdout=subprocess.PIPE, stderr=subprocess.PIPE)
    after = os.times()
    seconds = after.children_user + after.children_system - before.children_user - before.children_system
    words = child.stdout.split()
    peak = child.stderr.split()[-1].decode() + " KiB" if timed else "unknown"
    return seconds, peak, int(words[1]), int(words[3]), int(words[5])


def best(times, path):
    # the best of three runs, less what reading alone takes
    reading = min(run(0, path)[0] for _ in range(3))
    runs = [run(times, path) for _ in range(3)]
    seconds = min(one[0] for one in runs) - reading
    return (seconds,) + runs[0][1:]


seconds, peak, codes, size, insns = best(rounds, folder)
print("folder: %d codes, %d bytes, %.1f million instructions a second, peak %s" % (codes // rounds, size // rounds, insns / seconds / 1e6, peak))
for n in (16383, 32767, 65535):
    seconds, peak, codes, size, insns = best(100, "%s/codes%d.class" % (work, n))
    print("one code of %d bytes, 10000 handlers: %.0f microseconds, %.1f million instructions a second, peak %s" % (n, seconds * 1e4, insns / seconds / 1e6, peak))
PY
