#!/usr/bin/env python3
"""Prints the line that `averroes verify` has for each method with code below a folder of class files, as javap lists them.

verified.py FOLDER
It knows nothing of the program's code: names, descriptors and codes are javap's.
"""
import os
import re
import subprocess
import sys


def shown(text):
    """The text with each byte that isn't a printable ASCII character, and each `%`, written as `%` and two digits."""
    data = text.encode("utf-8", "surrogatepass")
    return "".join(chr(b) if 33 <= b < 127 and b != 37 else "%%%02X" % b for b in data)


def methods(listing):
    """Of each method with code its class's name, its name and its descriptor."""
    found, class_name, name, desc = [], None, None, None
    for line in listing.split("\n"):
        named = re.match(r"  this_class: #\d+ +// (\S+)", line)
        if named:
            class_name = named[1].strip('"')
        elif re.match(r"  \S.*;$", line) and "(" in line or line == "  static {};":
            head = line.split("(")[0].split()[-1] if "(" in line else None
            own = class_name.replace("/", ".")
            name = "<clinit>" if head is None else "<init>" if head == own else head
        elif line.startswith("    descriptor: "):
            desc = line[len("    descriptor: "):]
        elif line == "    Code:":
            found.append((class_name, name, desc))
    return found


def main(folder):
    files = [os.path.join(at, name) for at, _, names in os.walk(folder) for name in names
             if name.endswith(".class") and name != "module-info.class"]
    lines = []
    for start in range(0, len(files), 100):
        words = ["javap", "-v", "-p", *files[start:start + 100]]
        listing = subprocess.run(words, capture_output=True, encoding="utf-8", check=True).stdout
        lines += ["verified %s %s %s" % tuple(map(shown, method)) for method in methods(listing)]
    print("".join(line + "\n" for line in sorted(lines)), end="")


main(sys.argv[1])
