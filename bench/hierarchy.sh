#!/usr/bin/env bash
# Times the building of worlds and subtype tests over them: the program `measure` on a chain and a fan of
# classes and on a lattice of interfaces, on n and 2n of them. Prints a row a world: how many proper supertypes
# its classes have together, the seconds and the peak memory of building, nanoseconds and bytes a supertype,
# and the seconds of a million subtype tests. Then a row for a class of many methods and for chains of a hundred
# classes, also where each class that is passed has many others: nanoseconds to resolve a method of the topmost
# class from the lowest one and to select it there, and the seconds of building; where rustc is installed, beside
# them two look-ups of the same method in plain Rust (bench/members.rs, rustc -O), by a scan of each class and by
# halves. All are processor seconds. It builds the program first, unless a second word names one that is there; `-`
# leaves the program out.
set -eu
top=$(cd "$(dirname "$0")/.." && pwd)
program=${2:-}
if [ -z "$program" ]; then
  "$top/bench/build.sh" measure sample
  program=$top/crates/measure/out/measure
fi
work=$(mktemp -d)
trap 'rm -rf "$work"' EXIT
plain=
if command -v rustc >/dev/null 2>&1; then
  rustc -O --edition 2021 -o "$work/members" "$top/bench/members.rs"
  plain=$work/members
fi
python3 - "$program" "${1:-5000}" "$plain" <<'PY'
import os, subprocess, sys

program, classes, plain = sys.argv[1], int(sys.argv[2]), sys.argv[3]
ours = program != "-"


def run(*words):
    # the best of three runs: processor seconds, peak kilobytes, what it printed
    best = None
    for _ in range(3):
        child = subprocess.Popen(words, stdout=subprocess.PIPE)
        out = child.stdout.read()
        _, status, usage = os.wait4(child.pid, 0)
        assert status == 0, words
        seconds = usage.ru_utime + usage.ru_stime
        if best is None or seconds < best[0]:
            best = (seconds, usage.ru_maxrss, out)
    return best


def look_ups(*words, rounds):
    # nanoseconds for each method that is looked up, seconds without looking any up, and peak kilobytes
    methods = int(words[3])
    built, _, _ = run(*words, "0")
    found, peak, out = run(*words, str(rounds))
    assert int(out) == methods * rounds, words
    return (found - built) * 1e9 / (methods * rounds), built, peak


for family in ("chain", "fan", "lattice") if ours else ():
    for count in (classes, 2 * classes):
        built, peak, out = run(program, "world", family, str(count), "0")
        tested, _, _ = run(program, "world", family, str(count), "1000000")
        supers = int(out.split()[0])
        print(
            "%s n=%d supertypes=%d build: %.3f s %d KiB, %.1f ns and %.1f bytes a supertype, a million tests: %.3f s"
            % (family, count, supers, built, peak, built * 1e9 / supers, peak * 1024 / supers, tested - built)
        )

for count, methods, others, rounds in (
    (1, 5000, 0, 20), (100, 50, 0, 2000), (100, 5000, 0, 20), (100, 50, 500, 40), (100, 50, 5000, 4)
):
    words = (str(count), str(methods), str(others))
    print("members classes=%d methods=%d others=%d" % (count, methods, others))
    if ours:
        found = look_ups(program, "members", *words, rounds=rounds)
        print("  resolved and selected: %.0f ns a method; build: %.3f s, %d KiB" % found)
    for kind in ("scan", "halves") if plain else ():
        found = look_ups(plain, kind, *words, rounds=rounds)
        print("  plain Rust, %s: %.0f ns a method" % (kind, found[0]))
PY
