#!/usr/bin/env python3
"""Writes the stand-in of the library that an application meets: standin.py APPLICATION LIBRARY OUT

It was written apart from the program, and makes class files with code of its own; what is collected it takes from
collected.py. It writes the files below the folder OUT in order of name and prints `wrote NAME` for each. Where a
limit is passed it writes nothing, prints `limit QUANTITY NUMBER` and ends with status 5.
"""
import os
import struct
import sys

import collected

PUBLIC, PRIVATE, PROTECTED, STATIC, FINAL, SUPER, INTERFACE, ABSTRACT = 1, 2, 4, 8, 0x10, 0x20, 0x200, 0x400
OBJECT, LIBRARY, THROWABLE = "java/lang/Object", "averroes/Library", "java/lang/Throwable"
EXTRA = ("<init>", "(Laverroes/Library;)V")
ACONST_NULL, ICONST_0, ICONST_1, LCONST_0, FCONST_0, DCONST_0 = 1, 3, 4, 9, 11, 14
ALOAD, AALOAD, AASTORE, POP, POP2, DUP = 25, 50, 83, 87, 88, 89
IRETURN, LRETURN, FRETURN, DRETURN, ARETURN, RETURN = range(172, 178)
GETSTATIC, PUTSTATIC, GETFIELD, PUTFIELD, VIRTUAL, SPECIAL = range(178, 184)
INTERFACE_CALL, NEW, NEWARRAY, ANEWARRAY, ATHROW, CHECKCAST, IFNULL = 185, 187, 188, 189, 191, 192, 198
PRIMITIVES = {"Z": 4, "B": 8, "C": 5, "S": 9, "I": 10, "J": 11, "F": 6, "D": 7}


class Full(Exception):
    pass


class Pool:
    """A constant pool to which each item is added once."""

    def __init__(self):
        self.indices, self.texts = {}, []

    def item(self, tag, body):
        key = (tag, body)
        if key not in self.indices:
            if len(self.texts) == 65534:
                raise Full("pool", 65534)
            self.texts.append(bytes([tag]) + body)
            self.indices[key] = len(self.texts)
        return self.indices[key]

    def utf8(self, text):
        raw = text.encode("latin-1")
        return self.item(1, struct.pack(">H", len(raw)) + raw)

    def class_item(self, text):
        return self.item(7, struct.pack(">H", self.utf8(text)))

    def member(self, tag, owner, name, desc):
        owner_at = self.class_item(owner)
        name_at = self.utf8(name)
        desc_at = self.utf8(desc)
        pair = self.item(12, struct.pack(">HH", name_at, desc_at))
        return self.item(tag, struct.pack(">HH", owner_at, pair))


def parts_of(desc):
    """The types of the parameters of a method descriptor, and that of its result, `V` where it has none."""
    front, result = desc[1:].split(")")
    return collected.types_in(front), result


def words(part):
    """How many words a value of a type takes."""
    return {"V": 0, "J": 2, "D": 2}.get(part, 1)


def is_reference(part):
    return part[0] in "L["


def item_text(part):
    """The text of the Class item that names a type of references."""
    return part[1:-1] if part[0] == "L" else part


def in_dimensions(name, dims):
    """The text of the Class item of an array of so many dimensions of a class, or of the class itself."""
    return "[" * dims + f"L{name};" if dims else name


class Code:
    """Code with its greatest stack, one handler at most and one frame at most."""

    def __init__(self):
        self.steps, self.stack, self.most = [], 0, 0
        self.size, self.frame, self.covered, self.jump = 0, None, None, None

    def put(self, length, text, change):
        """An instruction: its length, a function from a pool to its bytes, and by how much the stack grows."""
        self.steps.append(text)
        self.size += length
        self.stack += change
        self.most = max(self.most, self.stack)

    def plain(self, op, change):
        self.put(1, lambda pool: bytes([op]), change)

    def load(self, local):
        self.put(2, lambda pool: bytes([ALOAD, local]), 1)

    def field(self, op, owner, name, desc, change):
        self.put(3, lambda pool: bytes([op]) + struct.pack(">H", pool.member(9, owner, name, desc)), change)

    def get(self, name):
        self.field(GETSTATIC, LIBRARY, name, f"L{OBJECT};", 1)

    def keep(self, name="known"):
        self.field(PUTSTATIC, LIBRARY, name, f"L{OBJECT};", -1)

    def type(self, op, text, change):
        self.put(3, lambda pool: bytes([op]) + struct.pack(">H", pool.class_item(text)), change)

    def get_as(self, text):
        self.get("known")
        self.type(CHECKCAST, text, 0)

    def value(self, part):
        """A known object of the type, or zero."""
        if is_reference(part):
            self.get_as(item_text(part))
        else:
            self.plain({"J": LCONST_0, "F": FCONST_0, "D": DCONST_0}.get(part, ICONST_0), words(part))

    def special(self, owner):
        self.put(3, lambda pool: bytes([SPECIAL]) + struct.pack(">H", pool.member(10, owner, *EXTRA)), -2)

    def call(self, owner, is_interface, name, desc):
        parameters, result = parts_of(desc)
        taken = 1 + sum(map(words, parameters))
        change = words(result) - taken
        if is_interface:
            tail = lambda pool: struct.pack(">HBB", pool.member(11, owner, name, desc), taken, 0)
            self.put(5, lambda pool: bytes([INTERFACE_CALL]) + tail(pool), change)
        else:
            self.put(3, lambda pool: bytes([VIRTUAL]) + struct.pack(">H", pool.member(10, owner, name, desc)), change)

    def if_null(self):
        at = self.size
        self.put(3, lambda pool: bytes([IFNULL]) + struct.pack(">h", self.frame[0] - at), -1)

    def land(self, locals_, stack):
        """A frame stands here: local variables and stack, each as a type's descriptor."""
        self.frame = (self.size, locals_, stack)
        self.stack = len(stack)
        self.most = max(self.most, self.stack)

    def body(self, pool, max_locals):
        code = b"".join(step(pool) for step in self.steps)
        handlers = b""
        if self.covered is not None:
            handlers = struct.pack(">HHHH", 0, self.covered, self.frame[0], 0)
        attributes = struct.pack(">H", 0)
        if self.frame is not None:
            attributes = struct.pack(">H", 1) + self.maps(pool)
        head = struct.pack(">HHI", self.most, max_locals, len(code))
        return head + code + struct.pack(">H", len(handlers) // 8) + handlers + attributes

    def maps(self, pool):
        name = pool.utf8("StackMapTable")
        at, locals_, stack = self.frame
        text = struct.pack(">HBH", 1, 255, at)
        for types in (locals_, stack):
            text += struct.pack(">H", len(types)) + b"".join(type_text(pool, part) for part in types)
        return struct.pack(">HI", name, len(text)) + text


def type_text(pool, part):
    """A verification type as it is written."""
    if is_reference(part):
        return struct.pack(">BH", 7, pool.class_item(item_text(part)))
    return bytes([{"F": 2, "D": 3, "J": 4}.get(part, 1)])


def hand_out(code, result):
    """A known object of the type of the result, or zero, or nothing, is returned."""
    if result == "V":
        code.plain(RETURN, 0)
        return
    code.value(result)
    code.plain(ARETURN if is_reference(result) else {"J": LRETURN, "F": FRETURN, "D": DRETURN}.get(result, IRETURN), -words(result))


def super_call(code, above):
    code.load(0)
    code.plain(ACONST_NULL, 1)
    code.special(above)


def template(owner, flags, name, desc, before=None):
    """What most methods do: all that they are handed becomes known; then they throw or answer what is known."""
    code = Code()
    parameters, result = parts_of(desc)
    receiver = [] if flags & STATIC else [f"L{owner};"]
    if before is not None:
        super_call(code, before)
    local = 0
    for place, part in enumerate(receiver + parameters):
        fresh = receiver and place == 0 and (owner, name, desc) == (OBJECT, "finalize", "()V")
        if is_reference(part) and not fresh:
            code.load(local)
            code.keep()
        local += words(part)
    code.get("known")
    code.if_null()
    code.get_as(THROWABLE)
    code.plain(ATHROW, -1)
    code.land(receiver + parameters, [])
    hand_out(code, result)
    return code


def extra_constructor(shape_name, above):
    code = Code()
    if shape_name != OBJECT:
        super_call(code, above)
    code.plain(RETURN, 0)
    return code


def method_code(shape, method):
    """The code of a collected method."""
    if method.flags & ABSTRACT:
        return None
    if method.name == "<init>":
        if shape.name != OBJECT:
            return template(shape.name, method.flags, method.name, method.desc, shape.parent)
        if method.desc == "()V":
            code = Code()
            code.load(0)
            code.keep("fresh")
            code.plain(RETURN, 0)
            return code
    return template(shape.name, method.flags, method.name, method.desc)


class Made:
    """A class of the stand-in: fields and methods by flags, name and descriptor, methods with code or without."""

    def __init__(self, flags, name, parent, interfaces, fields, methods):
        self.flags, self.name, self.parent, self.interfaces = flags, name, parent, interfaces
        self.fields, self.methods = fields, methods

    def text(self):
        if len(self.methods) > 65535:
            raise Full("methods", 65535)
        pool = Pool()
        head = struct.pack(">HH", self.flags, pool.class_item(self.name))
        head += struct.pack(">H", pool.class_item(self.parent) if self.parent else 0)
        head += struct.pack(">H", len(self.interfaces)) + b"".join(struct.pack(">H", pool.class_item(it)) for it in self.interfaces)
        fields = b"".join(struct.pack(">HHHH", flags, pool.utf8(name), pool.utf8(desc), 0) for flags, name, desc in self.fields)
        methods = b"".join(method_text(pool, *method) for method in self.methods)
        body = head + struct.pack(">H", len(self.fields)) + fields + struct.pack(">H", len(self.methods)) + methods + struct.pack(">H", 0)
        return struct.pack(">IHHH", 0xCAFEBABE, 0, 52, len(pool.texts) + 1) + b"".join(pool.texts) + body


def method_text(pool, flags, name, desc, code):
    head = struct.pack(">HHH", flags, pool.utf8(name), pool.utf8(desc))
    if code is None:
        return head + struct.pack(">H", 0)
    attribute = pool.utf8("Code")
    parameters, _ = parts_of(desc)
    body = code.body(pool, sum(map(words, parameters)) + (0 if flags & STATIC else 1))
    return head + struct.pack(">HHI", 1, attribute, len(body)) + body


class StandIn:
    def __init__(self, found):
        self.found, self.dims = found, found.dims
        self.shapes = {name: found.world.shape(name) for name in sorted(found.classes)}
        self.interfaces = [name for name, shape in self.shapes.items() if shape.flags & INTERFACE]
        self.fields = {name: self.sorted_members(shape.fields, found.fields, name) for name, shape in self.shapes.items()}
        self.methods = {name: self.sorted_members(shape.methods, found.methods, name) for name, shape in self.shapes.items()}
        self.interface_keys = {
            (it.name, it.desc)
            for name in self.interfaces
            for it in self.methods[name]
            if it.name != "<init>" and not it.flags & (PRIVATE | STATIC)
        }

    @staticmethod
    def sorted_members(members, chosen, owner):
        kept = [it for it in members if (owner, it.name, it.desc) in chosen]
        return sorted(kept, key=lambda it: (it.name, it.desc))

    def line(self, name):
        """The class and its superclasses."""
        while name:
            yield name
            name = self.shapes[name].parent

    def classes(self):
        made = [self.library()]
        for shape in self.shapes.values():
            made.append(self.collected_class(shape))
            if not shape.flags & (FINAL | INTERFACE):
                made.append(self.any_class(shape))
        for package in sorted({package_of(name) for name in self.shapes}):
            made.append(self.part(package))
        return sorted(made, key=lambda it: it.name + ".class")

    def library(self):
        fields = [(PUBLIC | STATIC, name, f"L{OBJECT};") for name in ("fresh", "known")]
        return Made(0x31, LIBRARY, OBJECT, [], fields, [])

    def collected_class(self, shape):
        flags, methods = shape.flags & 0x611, []
        for it in self.methods[shape.name]:
            methods.append((it.flags & 0x41F, it.name, it.desc, method_code(shape, it)))
        if not flags & INTERFACE:
            flags |= SUPER
            methods.append((PUBLIC, *EXTRA, extra_constructor(shape.name, shape.parent)))
        fields = [(it.flags & 0xF, it.name, it.desc) for it in self.fields[shape.name]]
        return Made(flags, shape.name, shape.parent, shape.interfaces, fields, sorted(methods, key=lambda it: it[1:3]))

    def any_class(self, shape):
        name = shape.name + "$averroes$any"
        keys = set(self.interface_keys)
        for above in self.line(shape.name):
            keys.update((it.name, it.desc) for it in self.methods[above] if it.name != "<init>" and it.flags & ABSTRACT and not it.flags & STATIC)
        methods = [(PUBLIC, *key, template(name, PUBLIC, *key)) for key in keys if not self.meets_final(shape.name, key)]
        methods.append((PUBLIC, *EXTRA, extra_constructor(name, shape.name)))
        return Made(0x31, name, shape.name, self.interfaces, [], sorted(methods, key=lambda it: it[1:3]))

    def meets_final(self, name, key):
        """A public method of this name and descriptor in the class of any object of the class would override a final one."""
        line = list(self.line(name))
        declared = {}
        for above in [*line, *self.interfaces]:
            for it in self.methods[above]:
                if (it.name, it.desc) == key and not it.flags & (PRIVATE | STATIC):
                    declared[above] = it.flags
        reached, waiting = set(), [(name, set(declared))]
        while waiting:
            here, below = waiting.pop()
            for above in below - reached:
                if declared[above] & (PUBLIC | PROTECTED) or package_of(above) == package_of(here):
                    reached.add(above)
                    waiting.append((above, {it for it in self.found.world.above(above) if it != above and it in declared}))
        return any(declared[above] & FINAL for above in reached.intersection(line))

    def part(self, package):
        codes = []
        for name, shape in self.shapes.items():
            if package_of(name) == package:
                codes += self.items(shape)
        if package == "java/lang/":
            codes += [self.primitive_arrays(letter, code) for letter, code in PRIMITIVES.items()]
            codes += [elements(), call_item(OBJECT, False, "finalize", "()V", "fresh")]
        methods = [(PUBLIC | STATIC, f"i{number}", "()V", code) for number, code in enumerate(codes)]
        return Made(0x31, package + "averroes$part", OBJECT, [], [], methods)

    def items(self, shape):
        is_interface = bool(shape.flags & INTERFACE)
        if not is_interface:
            made = shape.name if shape.flags & FINAL else shape.name + "$averroes$any"
            yield make_item(made)
            yield self.array_item(made)
        for it in self.methods[shape.name]:
            if not it.flags & (STATIC | PRIVATE) and it.name != "<init>":
                yield call_item(shape.name, is_interface, it.name, it.desc, "known")
        for it in self.fields[shape.name]:
            if is_reference(it.desc):
                yield field_item(shape.name, it)

    def array_item(self, made):
        code = Code()
        for dims in range(1, self.dims + 1):
            code.plain(ICONST_1, 1)
            code.type(ANEWARRAY, in_dimensions(made, dims - 1), 0)
            code.keep()
        code.plain(RETURN, 0)
        return code

    def primitive_arrays(self, letter, number):
        code = Code()
        code.plain(ICONST_1, 1)
        code.put(2, lambda pool: bytes([NEWARRAY, number]), 0)
        code.keep()
        for dims in range(2, self.dims + 1):
            code.plain(ICONST_1, 1)
            code.type(ANEWARRAY, "[" * (dims - 1) + letter, 0)
            code.keep()
        code.plain(RETURN, 0)
        return code


def package_of(name):
    """The name up to its last slash, that included."""
    return name[: name.rfind("/") + 1]


def make_item(made):
    code = Code()
    code.type(NEW, made, 1)
    code.plain(DUP, 1)
    code.plain(ACONST_NULL, 1)
    code.special(made)
    code.keep()
    code.plain(RETURN, 0)
    return code


def call_item(owner, is_interface, name, desc, receiver):
    code = Code()
    parameters, result = parts_of(desc)
    code.get(receiver)
    code.type(CHECKCAST, owner, 0)
    for part in parameters:
        code.value(part)
    code.call(owner, is_interface, name, desc)
    code.covered = code.size
    if is_reference(result):
        code.keep()
    elif result != "V":
        code.plain(POP2 if words(result) == 2 else POP, -words(result))
    code.plain(RETURN, 0)
    code.land([], [f"L{THROWABLE};"])
    code.keep()
    code.plain(RETURN, 0)
    return code


def field_item(owner, field):
    code = Code()
    is_static = field.flags & STATIC
    text = item_text(field.desc)
    if is_static:
        code.field(GETSTATIC, owner, field.name, field.desc, 1)
        code.keep()
        code.get_as(text)
        code.field(PUTSTATIC, owner, field.name, field.desc, -1)
    else:
        code.get_as(owner)
        code.field(GETFIELD, owner, field.name, field.desc, 0)
        code.keep()
        code.get_as(owner)
        code.get_as(text)
        code.field(PUTFIELD, owner, field.name, field.desc, -2)
    code.plain(RETURN, 0)
    return code


def elements():
    code = Code()
    code.get_as(f"[L{OBJECT};")
    code.plain(ICONST_0, 1)
    code.plain(AALOAD, -1)
    code.keep()
    code.get_as(f"[L{OBJECT};")
    code.plain(ICONST_0, 1)
    code.get("known")
    code.plain(AASTORE, -3)
    code.plain(RETURN, 0)
    return code


def main():
    application, library, out = sys.argv[1:4]
    found = collected.Collection(collected.read_application(application), library)
    files = []
    try:
        made = StandIn(found).classes()
        for it in made:
            if len(it.methods) > 65535:
                raise Full("methods", 65535)
        files = [(it.name + ".class", it.text()) for it in made]
        if sum(len(text) for _, text in files) > 268435456:
            raise Full("standin-bytes", 268435456)
    except Full as limit:
        print("limit", *limit.args)
        sys.exit(5)
    for name, text in files:
        path = f"{out}/{name}"
        os.makedirs(os.path.dirname(path), exist_ok=True)
        with open(path, "wb") as file:
            file.write(text)
        print("wrote", name)


if __name__ == "__main__":
    main()
