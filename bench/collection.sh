#!/usr/bin/env bash
# Times collection: the program `measure` over libraries of 5,000 classes that bench/make_library.py writes, of
# which an application reaches 10, 100, 1,000 and all in one round, or 100, 300 and 1,000 in as many rounds, each class
# being the superclass of the one before. Prints what is collected, the seconds of the processor that one collection
# takes (best of three runs), the peak memory, and, where strace is installed, how many files of the library are opened.
# Then it looks whether 8,000 classes are collected, and 8,001 are too many.
#
# collection.sh [PROGRAM]: another program than the one that is built here
set -eu
top=$(cd "$(dirname "$0")/.." && pwd)
work=$(mktemp -d)
trap 'rm -rf "$work"' EXIT
[ -n "${1:-}" ] || "$top/bench/build.sh" measure sample
python3 - "$top" "$work" "${1:-$top/crates/measure/out/measure}" <<'PY'
import os, shutil, subprocess, sys

top, work, program = sys.argv[1:4]


def run(rounds, folder):
    child = subprocess.Popen([program, "collect", str(rounds), folder + "/application", folder + "/library"],
                             stdout=subprocess.PIPE, stderr=subprocess.DEVNULL)
    out = child.stdout.read().decode().splitlines()
    _, status, used = os.wait4(child.pid, 0)
    return used.ru_utime + used.ru_stime, used.ru_maxrss, out[-1] if out else "status %d" % (status >> 8)


def opened(folder):
    if not shutil.which("strace"):
        return "not counted"
    trace = work + "/trace"
    subprocess.run(["strace", "-f", "-e", "trace=openat,open", "-o", trace, program, "collect", "1",
                    folder + "/application", folder + "/library"], stdout=subprocess.DEVNULL, stderr=subprocess.DEVNULL)
    with open(trace) as lines:
        files = [line for line in lines if ".class" in line and "library" in line]
    return "%d" % len(files)


def make(family, classes, reached):
    folder = "%s/%s%d" % (work, family, reached)
    subprocess.run(["python3", top + "/bench/make_library.py", family, str(classes), str(reached), folder], check=True)
    return folder


for family, reached, rounds in (("wide", 10, 20), ("wide", 100, 10), ("wide", 1000, 3), ("wide", 5000, 1),
                                ("chain", 100, 1), ("chain", 300, 1), ("chain", 1000, 1)):
    folder = make(family, 5000, reached)
    reading = min(run(0, folder)[0] for _ in range(3))
    runs = [run(rounds, folder) for _ in range(1 if (family, reached) == ("chain", 1000) else 3)]
    seconds = (min(one[0] for one in runs) - reading) / rounds
    print("%s %d: %s, %.1f ms, peak %.1f MB, files opened %s" % (
        family, reached, runs[0][2], seconds * 1e3, runs[0][1] / 1e3, opened(folder) if seconds < 20 else "not counted"), flush=True)
    shutil.rmtree(folder)

for reached in (7994, 7995):
    print("wide %d of 8000: %s" % (reached, run(1, make("wide", 8000, reached))[2]), flush=True)
PY
