#!/usr/bin/env python3
"""Writes a class of many methods, in the form that `averroes calls` reads.

make_class.py FAMILY N FILE

FAMILY  chain  main calls m0, and each method the next one
        fan    a tree in which each method calls up to a hundred others
        wide   N kilobytes of code, in methods of 64,000 bytes that call one another
        flow   N methods, each of which makes an object, puts the one it was handed into its field, and
               hands it to the next method, which reads it back out of that field
        codes  one method of N bytes of code, of pushes and pops, with 10,000 handlers
        long   one method of N instructions, of pushes and pops, with 200 local variables
        handlers  one method of N handlers, each of which covers a push and a pop of its own
        covered   one method of N handlers, each of which covers all of N pushes and pops
        maps   one method of N branches, each to the frame of a stack map behind it, with 2 local variables
The class is named `Big`, and FILE should be `Big.class`.
"""
import struct
import sys

family, size, path = sys.argv[1], int(sys.argv[2]), sys.argv[3]

pool = []
known = {}


def item(key, text):
    if key not in known:
        pool.append(text)
        known[key] = len(pool)
    return known[key]


def utf8(text):
    raw = text.encode("ascii")
    return item(("utf8", text), b"\x01" + struct.pack(">H", len(raw)) + raw)


def class_item(name):
    at = utf8(name)
    return item(("class", name), b"\x07" + struct.pack(">H", at))


def method_item(class_name, name, desc):
    class_at = class_item(class_name)
    name_at, desc_at = utf8(name), utf8(desc)
    pair = item(("pair", name, desc), b"\x0c" + struct.pack(">HH", name_at, desc_at))
    return item(("method", class_name, name, desc), b"\x0a" + struct.pack(">HH", class_at, pair))


def field_item(class_name, name, desc):
    class_at = class_item(class_name)
    name_at, desc_at = utf8(name), utf8(desc)
    pair = item(("pair", name, desc), b"\x0c" + struct.pack(">HH", name_at, desc_at))
    return item(("field", class_name, name, desc), b"\x09" + struct.pack(">HH", class_at, pair))


def call(name):
    return b"\xb8" + struct.pack(">H", method_item("Big", name, "()V"))


def method(name, desc, access, code, handlers=b"", maps=(), max_locals=2):
    content = struct.pack(">HHI", 2, max_locals, len(code)) + code
    content += struct.pack(">H", len(handlers) // 8) + handlers
    if maps:
        table = struct.pack(">H", len(maps)) + b"".join(maps)
        content += struct.pack(">HHI", 1, utf8("StackMapTable"), len(table)) + table
    else:
        content += struct.pack(">H", 0)
    attribute = struct.pack(">HI", utf8("Code"), len(content)) + content
    return struct.pack(">HHHH", access, utf8(name), utf8(desc), 1) + attribute


def caught(delta):
    """The frame of a stack map at which a handler begins that catches all."""
    return b"\xf7" + struct.pack(">H", delta) + b"\x07" + struct.pack(">H", class_item("java/lang/Throwable"))


def named(op, index):
    return bytes([op]) + struct.pack(">H", index)


def link(name):
    """A method that makes an object, links it to the parameter, reads the link, and calls the method of this name."""
    make = named(187, class_item("Big")) + b"\x59" + named(183, method_item("Big", "<init>", "()V")) + b"\x4c"
    put = b"\x2b\x2a" + named(181, field_item("Big", "last", "LBig;"))
    get = b"\x2b" + named(180, field_item("Big", "last", "LBig;")) + b"\x57"
    hand = b"\x2b" + named(184, method_item("Big", name, "(LBig;)V")) if name else b""
    return make + put + get + hand + end


fields = []
methods = []
main_desc = "([Ljava/lang/String;)V"
end = b"\xb1"
if family == "chain":
    methods.append(method("main", main_desc, 9, call("m0") + end))
    for i in range(size):
        methods.append(method("m%d" % i, "()V", 8, (call("m%d" % (i + 1)) if i + 1 < size else b"") + end))
elif family == "fan":
    methods.append(method("main", main_desc, 9, call("m0") + end))
    for i in range(size):
        below = range(100 * i + 1, min(100 * i + 101, size))
        methods.append(method("m%d" % i, "()V", 8, b"".join(call("m%d" % j) for j in below) + end))
elif family == "wide":
    count = max(1, size * 1024 // 64000)
    body = b"\x03\x57" * 31900
    methods.append(method("main", main_desc, 9, call("m0") + end))
    for i in range(count):
        methods.append(method("m%d" % i, "()V", 8, call("m%d" % ((i + 1) % count)) + body + end))
elif family == "flow":
    fields.append(struct.pack(">HHHH", 0, utf8("last"), utf8("LBig;"), 0))
    start = b"\x2a" + named(183, method_item("java/lang/Object", "<init>", "()V"))
    methods.append(method("<init>", "()V", 0, start + end))
    methods.append(method("main", main_desc, 9, b"\x01" + named(184, method_item("Big", "m0", "(LBig;)V")) + end))
    for i in range(size):
        methods.append(method("m%d" % i, "(LBig;)V", 8, link("m%d" % (i + 1) if i + 1 < size else "")))
elif family == "codes":
    code = b"\x03\x57" * ((size - 1) // 2) + b"\0" * ((size - 1) % 2) + end
    handlers = b"".join(struct.pack(">HHHH", 2 * (i % 1000), size, 0, 0) for i in range(10000))
    methods.append(method("main", main_desc, 9, code, handlers))
elif family == "long":
    stores = b"".join(b"\x03\x36" + bytes([i]) for i in range(1, 200))
    code = stores + b"\x03\x57" * ((size - 399) // 2) + b"\0" * ((size - 399) % 2) + end
    methods.append(method("main", main_desc, 9, code, max_locals=200))
elif family in ("handlers", "covered"):
    code = b"\x03\x57" * size + end + b"\x57" + end
    target = 2 * size + 1
    bounds = [(2 * i, 2 * i + 2) if family == "handlers" else (0, 2 * size) for i in range(size)]
    handlers = b"".join(struct.pack(">HHHH", start, over, target, 0) for start, over in bounds)
    methods.append(method("main", main_desc, 9, code, handlers, [caught(target)]))
elif family == "maps":
    code = b"\x03\x99\0\x03" * size + end
    methods.append(method("main", main_desc, 9, code, maps=[b"\x04"] + [b"\x03"] * (size - 1)))
else:
    sys.exit("FAMILY is chain, fan, wide, flow, codes, long, handlers, covered or maps")

this_class, super_class = class_item("Big"), class_item("java/lang/Object")
out = b"\xca\xfe\xba\xbe" + struct.pack(">HHH", 0, 52, len(pool) + 1) + b"".join(pool)
out += struct.pack(">HHHHH", 0x21, this_class, super_class, 0, len(fields)) + b"".join(fields)
out += struct.pack(">H", len(methods)) + b"".join(methods) + struct.pack(">H", 0)
with open(path, "wb") as file:
    file.write(out)
