#!/usr/bin/env bash
# Times reading class files, and reading and writing them: the program `measure` over the class files
# below a folder, and beside it one run of `javap -p -c` on all of them, where a JDK is installed. Then a class
# of n, 2n and 4n methods, and files whose counts are as great as can be, with nothing behind them. Prints
# megabytes a second, and how many times slower javap is; of the greatest counts microseconds a file and the
# peak memory.
#
# classes.sh FOLDER [ROUNDS]
set -eu
top=$(cd "$(dirname "$0")/.." && pwd)
work=$(mktemp -d)
trap 'rm -rf "$work"' EXIT
"$top/bench/build.sh" measure sample
for n in 5000 10000 20000; do
  python3 "$top/bench/make_class.py" chain "$n" "$work/chain$n.class"
done
python3 - "$top/crates/measure/out/measure" "$1" "${2:-100}" "$work" <<'PY'
import glob, os, shutil, struct, subprocess, sys, time

program, folder, rounds, work = sys.argv[1], sys.argv[2], int(sys.argv[3]), sys.argv[4]


def run(words):
    # seconds, peak memory where the command `time` is installed, and what was printed
    timed = ["time", "-f", "%M"] if shutil.which("time") else []
    begin = time.monotonic()
    child = subprocess.run(timed + words, stdout=subprocess.PIPE, stderr=subprocess.PIPE)
    seconds = time.monotonic() - begin
    return seconds, child.stderr.split()[-1].decode() + " KiB" if timed else "unknown", child.stdout


def rate(what, times, path):
    # the best of three runs, in megabytes a second
    best, count = 0.0, 0
    for _ in range(3):
        seconds, peak, out = run([program, what, str(times), path])
        count = int(out.split()[-1])
        best = max(best, count / seconds / 1e6)
    return best, count // times, peak


files = sorted(glob.glob(os.path.join(folder, "**", "*.class"), recursive=True))
theirs = None
if shutil.which("javap"):
    seconds, _, _ = run(["javap", "-p", "-c"] + files)
    theirs = sum(map(os.path.getsize, files)) / seconds / 1e6
for what in ("read", "again"):
    ours, size, peak = rate(what, rounds, folder)
    line = "%s: %d files, %d bytes, %.0f MB/s, peak %s" % (what, len(files), size, ours, peak)
    print(line + (", javap %.2f MB/s, ratio %.0f" % (theirs, ours / theirs) if theirs else ", no JDK"))

for n in (5000, 10000, 20000):
    ours, size, peak = rate("read", 10, "%s/chain%d.class" % (work, n))
    print("chain n=%d: %d bytes, %.1f MB/s, peak %s" % (n, size, ours, peak))

# a class `A` with nothing behind one of its counts
most = b"\xff\xff"
texts = [b"A", b"Code", b"()V", b"StackMapTable"]
pool = struct.pack(">H", len(texts) + 2) + b"".join(b"\x01" + struct.pack(">H", len(t)) + t for t in texts)
head = b"\xca\xfe\xba\xbe\0\0\0\x34" + pool + b"\x07\0\x01" + b"\0\x21\0\x05\0\0"
method = head + b"\0\0\0\0\0\x01" + b"\0\x09\0\x01\0\x03"
code = method + b"\0\x01\0\x02" + struct.pack(">I", 0x7FFFFFFF) + b"\0\x01\0\x01" + struct.pack(">I", 1) + b"\xb1"
hostile = {
    "pool": b"\xca\xfe\xba\xbe\0\0\0\x34" + most,
    "interfaces": head + most,
    "fields": head + b"\0\0" + most,
    "methods": head + b"\0\0\0\0" + most,
    "attributes": method + most,
    "code": method + b"\0\x01\0\x02" + most + most,
    "handlers": code + most,
    "frames": code + b"\0\0\0\x01\0\x04" + struct.pack(">I", 0x7FFFFFFF) + most,
}
for name, text in hostile.items():
    path = "%s/%s.class" % (work, name)
    with open(path, "wb") as out:
        out.write(text)
    seconds, peak, _ = run([program, "read", "10000", path])
    print("greatest count of %s: %d bytes, %.1f microseconds, peak %s" % (name, len(text), seconds * 100, peak))
PY
