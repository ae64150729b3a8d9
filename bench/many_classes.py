#!/usr/bin/env python3
"""Writes an application, in a folder `app`, and the small library of class_files.py, in a folder `lib`.

many_classes.py FAMILY FOLDER

FAMILY  many   20,000 classes, each with a constructor and a method that makes an object of the next class
        large  one class of nearly 16 MB, of 279 methods with one switch of 15,000 targets each
"""
import os
import struct
import sys

sys.dont_write_bytecode = True
from class_files import PUBLIC, STATIC, Class, library


def many():
    for number in range(20000):
        following = "app/C%05d" % ((number + 1) % 20000)
        made = Class("app/C%05d" % number).init()
        yield made.method("f", "()V", [
            "new " + following, "dup", "invokespecial %s.<init>()V" % following, "pop", "return"], PUBLIC | STATIC)


def large():
    made = Class("app/Large")
    count = 15000
    # the switch stands at 1; its default stands at 4, and behind it its bounds, its targets and a return
    to_return = 16 + 4 * count
    switch = b"\x03\xaa\0\0" + struct.pack(">iii", to_return - 1, 0, count - 1)
    switch += struct.pack(">i", to_return - 1) * count
    for number in range(279):
        made.method("f%d" % number, "()V", switch + b"\xb1", PUBLIC | STATIC, stack=1, locals=0,
                    frames=["bytes fb%04x" % to_return])
    yield made


def write(root, one):
    path = os.path.join(root, one.file())
    os.makedirs(os.path.dirname(path), exist_ok=True)
    with open(path, "wb") as file:
        file.write(one.data())


family, folder = sys.argv[1:3]
for one in {"many": many, "large": large}[family]():
    write(folder + "/app", one)
for one in library().values():
    write(folder + "/lib", one)
