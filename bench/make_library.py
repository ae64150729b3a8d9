#!/usr/bin/env python3
"""Writes a library of many classes, and an application that reaches some of them.

make_library.py FAMILY CLASSES REACHED FOLDER

FAMILY  wide   the application names each of the classes that it reaches, and calls a method of each
        chain  the application names the first class, and each class but the last extends the next one
The library stands in FOLDER/library: the six classes that every world has, and `lib/C0`, `lib/C1` and so on, each of
them with two fields and five methods. The application stands in FOLDER/application.
"""
import os
import struct
import sys

PUBLIC, INTERFACE = 0x21, 0x601
OBJECT = "java/lang/Object"


class ClassFile:
    def __init__(self, name, flags=PUBLIC, parent=OBJECT):
        self.pool, self.known, self.members = [], {}, {"fields": [], "methods": []}
        above = self.class_item(parent) if parent else 0
        self.head = struct.pack(">HHHH", flags, self.class_item(name), above, 0)

    def item(self, data):
        if data not in self.known:
            self.pool.append(data)
            self.known[data] = len(self.pool)
        return self.known[data]

    def utf8(self, text):
        return self.item(b"\x01" + struct.pack(">H", len(text)) + text.encode("ascii"))

    def class_item(self, name):
        return self.item(b"\x07" + struct.pack(">H", self.utf8(name)))

    def method_item(self, owner, name, desc):
        pair = self.item(b"\x0c" + struct.pack(">HH", self.utf8(name), self.utf8(desc)))
        return self.item(b"\x0a" + struct.pack(">HH", self.class_item(owner), pair))

    def field(self, name, desc):
        self.members["fields"].append(struct.pack(">HHHH", 1, self.utf8(name), self.utf8(desc), 0))

    def method(self, name, desc, code, access=1):
        body = struct.pack(">HHI", 1, 1, len(code)) + code + struct.pack(">HH", 0, 0)
        attribute = struct.pack(">HI", self.utf8("Code"), len(body)) + body
        self.members["methods"].append(struct.pack(">HHHH", access, self.utf8(name), self.utf8(desc), 1) + attribute)

    def write(self, folder, name):
        data = b"\xca\xfe\xba\xbe" + struct.pack(">HHH", 0, 52, len(self.pool) + 1) + b"".join(self.pool) + self.head
        for kind in ("fields", "methods"):
            data += struct.pack(">H", len(self.members[kind])) + b"".join(self.members[kind])
        path = f"{folder}/{name}.class"
        os.makedirs(os.path.dirname(path), exist_ok=True)
        with open(path, "wb") as file:
            file.write(data + struct.pack(">H", 0))


THROWS = b"\x01\xbf"


def write_core(folder):
    made = ClassFile(OBJECT, parent=None)
    made.method("<init>", "()V", THROWS)
    made.method("finalize", "()V", THROWS, 4)
    made.write(folder, OBJECT)
    for name in ("java/lang/Throwable", "java/lang/String", "java/lang/Class"):
        ClassFile(name).write(folder, name)
    for name in ("java/lang/Cloneable", "java/io/Serializable"):
        ClassFile(name, INTERFACE).write(folder, name)


def write_library(family, classes, reached, folder):
    write_core(folder)
    for place in range(classes):
        extends = family == "chain" and place + 1 < reached
        made = ClassFile(f"lib/C{place}", parent=f"lib/C{place + 1}" if extends else OBJECT)
        made.field("x", "I")
        made.field("y", "Ljava/lang/String;")
        for number in range(5):
            made.method(f"m{number}", "()V", THROWS)
        made.write(folder, f"lib/C{place}")


def write_application(family, reached, folder):
    made, code = ClassFile("app/Main"), b""
    for place in range(reached if family == "wide" else 1):
        code += b"\x01\xb6" + struct.pack(">H", made.method_item(f"lib/C{place}", "m0", "()V"))
    made.method("main", "([Ljava/lang/String;)V", code + b"\xb1", 9)
    made.write(folder, "app/Main")


def main():
    family, classes, reached, folder = sys.argv[1], int(sys.argv[2]), int(sys.argv[3]), sys.argv[4]
    write_library(family, classes, reached, f"{folder}/library")
    write_application(family, reached, f"{folder}/application")


main()
