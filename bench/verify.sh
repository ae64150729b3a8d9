#!/usr/bin/env bash
# Times verifying: the program `measure` verifies the methods of the class files below each folder of CLASSES (of
# its folder `programs`, each subfolder) over the declarations of a library. Beside it, where a JDK is installed,
# the JVM links the same classes (bench/Linking.java), with -Xverify:all and with -Xverify:none; the difference
# is its verifying. Then single methods of n, 2n and 4n instructions, handlers or frames (bench/make_class.py).
# Prints instructions by the second, of a single method milliseconds, and the peak memory. Our seconds are of the
# processor, less what reading takes; those of the JVM are what its one thread waited, without the first of its
# rounds.
#
# Then the command: `averroes verify` on the same folders, on 20,000 small classes and on one class of 16 MB
# (bench/many_classes.py), and beside it on the same files `java -Xverify:all`, which links the classes once, and, where
# Debian's libasm-java is installed, ASM's checks (bench/Checking.java). Each is a whole process: the best of three runs,
# in milliseconds that passed, and its peak memory.
#
# verify.sh CLASSES LIBRARY [ROUNDS]
set -eu
top=$(cd "$(dirname "$0")/.." && pwd)
work=$(mktemp -d)
trap 'rm -rf "$work"' EXIT
"$top/bench/build.sh" measure sample
"$top/bench/build.sh" averroes calls
asm=$(printf '%s:' /usr/share/java/asm.jar /usr/share/java/asm-{tree,analysis,util}.jar)
if command -v javac >/dev/null 2>&1; then
  javac -d "$work" "$top/bench/Linking.java"
  if [ -f /usr/share/java/asm-util.jar ]; then
    javac -d "$work" -cp "$asm" "$top/bench/Checking.java"
  fi
fi
python3 - "$top" "$work" "$1" "$2" "${3:-20}" "$asm" <<'PY'
import glob, os, subprocess, sys, time

top, work, classes, library, rounds, asm = sys.argv[1:5] + [int(sys.argv[5]), sys.argv[6]]
program = top + "/crates/measure/out/measure"
has_jvm = os.path.exists(work + "/Linking.class")
has_asm = os.path.exists(work + "/Checking.class")


def run(words):
    # processor seconds, peak bytes, and what was printed
    child = subprocess.Popen(words, stdout=subprocess.PIPE, stderr=subprocess.DEVNULL)
    out = child.stdout.read().split()
    _, status, used = os.wait4(child.pid, 0)
    assert status == 0, words
    return used.ru_utime + used.ru_stime, used.ru_maxrss * 1024, out


def ours(times, folder, library):
    # the best of three runs, less what reading alone takes: seconds a round, its codes and instructions, peak
    def verify(times):
        runs = [run([program, "verify", str(times), folder, library]) for _ in range(3)]
        return min(runs, key=lambda one: one[0])

    reading, (seconds, peak, out) = verify(0)[0], verify(times)
    assert out[5] == out[7]
    return (seconds - reading) / times, int(out[5]) // times, int(out[9]) // times, peak


def theirs(times, folder):
    # the best of three runs of linking with and without verifying: seconds a round of verifying, and peak
    def link(kind):
        words = ["java", "-Xverify:" + kind, "-cp", work, "Linking", str(times + 1), folder]
        runs = [run(words) for _ in range(3)]
        return min(int(out[1]) for _, _, out in runs) / times / 1e9, max(peak for _, peak, _ in runs)

    seconds, peak = link("all")
    return seconds - link("none")[0], peak


def row(what, times, folder, library):
    seconds, codes, insns, peak = ours(times, folder, library)
    line = "%s: %d codes, %d instructions, %.2f ms, %.2f million instructions a second, peak %.1f MB" % (
        what, codes, insns, seconds * 1e3, insns / seconds / 1e6, peak / 1e6)
    if has_jvm:
        jvm, jvm_peak = theirs(times, folder)
        line += "; JVM %.2f ms, ours : JVM %.1f, peak %.1f MB" % (jvm * 1e3, seconds / jvm, jvm_peak / 1e6)
    print(line if has_jvm else line + ", no JDK", flush=True)


folders = [folder for folder in ["cup", "jasmin", "jlex", "jzlib", "tagsoup"] + sorted(
    os.path.relpath(path, classes) for path in glob.glob(classes + "/programs/*/")
) if os.path.isdir(os.path.join(classes, folder))]
for folder in folders:
    row(folder, rounds, os.path.join(classes, folder), library)

for family, most, times in (("long", 60000, 5), ("handlers", 5000, 5), ("covered", 1000, 2), ("maps", 10000, 5)):
    for size in (most // 4, most // 2, most):
        folder = "%s/%s%d" % (work, family, size)
        os.mkdir(folder)
        subprocess.run(["python3", top + "/bench/make_class.py", family, str(size), folder + "/Big.class"], check=True)
        row("%s n=%d" % (family, size), times, folder, top + "/crates/measure/data/verify/library")


def passed(words):
    # the best of three whole processes: milliseconds that passed, and peak bytes
    def once():
        start = time.monotonic()
        child = subprocess.Popen(words, stdout=subprocess.DEVNULL, stderr=subprocess.DEVNULL)
        _, status, used = os.wait4(child.pid, 0)
        assert status == 0, words
        return (time.monotonic() - start) * 1e3, used.ru_maxrss * 1024

    return min(once() for _ in range(3))


def command_row(what, folder, library):
    runs = [("averroes", [top + "/crates/averroes/out/averroes", "verify", "--app", folder, "--lib", library])]
    if has_jvm:
        runs.append(("JVM", ["java", "-Xverify:all", "-cp", work, "Linking", "1", folder]))
    if has_asm:
        runs.append(("ASM", ["java", "-cp", work + ":" + asm, "Checking", folder]))
    parts = ["%s %.0f ms, %.1f MB" % (name, span, peak / 1e6) for name, (span, peak) in ((n, passed(w)) for n, w in runs)]
    print("command, %s: %s" % (what, "; ".join(parts)), flush=True)


for folder in folders:
    command_row(folder, os.path.join(classes, folder), library)
for family in ("many", "large"):
    folder = "%s/%s" % (work, family)
    subprocess.run(["python3", top + "/bench/many_classes.py", family, folder], check=True)
    command_row(family, folder + "/app", folder + "/lib")
PY
