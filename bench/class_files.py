"""Class files from a few words, for rows on applications: a writer of class files, and a small library.

Nothing here is taken from the program: the layout is that of chapter 4 of the JVM specification.
"""
import re
import struct

PUBLIC, PRIVATE, PROTECTED, STATIC, FINAL, SUPER = 1, 2, 4, 8, 0x10, 0x20
NATIVE, INTERFACE, ABSTRACT = 0x100, 0x200, 0x400
MAIN = "([Ljava/lang/String;)V"

PLAIN = """nop aconst_null iconst_m1 iconst_0 iconst_1 iconst_2 iconst_3 iconst_4 iconst_5 lconst_0 lconst_1 fconst_0
fconst_1 fconst_2 dconst_0 dconst_1""".split()
OPCODES = {name: at for at, name in enumerate(PLAIN)}
OPCODES.update(
    bipush=16, sipush=17, ldc=18, ldc_w=19, ldc2_w=20, iload=21, lload=22, fload=23, dload=24, aload=25, iaload=46,
    aaload=50, istore=54, lstore=55, fstore=56, dstore=57, astore=58, aastore=83, pop=87, pop2=88, dup=89, swap=95,
    iadd=96, ladd=97, iinc=132, ifeq=153, ifnull=198, goto=167, jsr=168, ret=169, ireturn=172, lreturn=173,
    areturn=176, getstatic=178, putstatic=179, getfield=180, putfield=181, invokevirtual=182, invokespecial=183,
    invokestatic=184, invokeinterface=185, invokedynamic=186, new=187, newarray=188, anewarray=189, arraylength=190,
    athrow=191, checkcast=192, instanceof=193, monitorenter=194, multianewarray=197, goto_w=200, jsr_w=201)
OPCODES["return"] = 177
for at, kind in enumerate("ilfda"):
    for local in range(4):
        OPCODES["%sload_%d" % (kind, local)] = 26 + 4 * at + local
        OPCODES["%sstore_%d" % (kind, local)] = 59 + 4 * at + local

TYPES = {"Top": 0, "Integer": 1, "Float": 2, "Double": 3, "Long": 4, "Null": 5, "UninitializedThis": 6}


def u2(number):
    return struct.pack(">H", number)


def text_bytes(text):
    return text if isinstance(text, bytes) else text.encode("utf-8")


def words_of(desc):
    """How many words the parameters of a descriptor take."""
    params = re.findall(r"(\[*)(?:([BCFIDJSZ])|L[^;]*;)", desc[1:desc.index(")")])
    return sum(2 if kind in ("J", "D") and not dims else 1 for dims, kind in params)


class Class:
    """A class that is being written; its name says where its file lies."""

    def __init__(self, name, parent="java/lang/Object", flags=PUBLIC | SUPER, interfaces=(), major=52, minor=0):
        self.name, self.parent, self.flags, self.interfaces = name, parent, flags, list(interfaces)
        self.major, self.minor = major, minor
        self.items, self.known, self.fields, self.methods, self.attrs = [], {}, [], [], []
        self.coded = []

    # ---- the constant pool

    def item(self, data, slots=1):
        if data not in self.known:
            self.known[data] = len(self.items) + 1
            self.items += [data] + [b""] * (slots - 1)
        return self.known[data]

    def utf8(self, text):
        data = text_bytes(text)
        return self.item(b"\x01" + u2(len(data)) + data)

    def class_item(self, name):
        return self.item(b"\x07" + u2(self.utf8(name)))

    def string(self, text):
        return self.item(b"\x08" + u2(self.utf8(text)))

    def member(self, tag, owner, name, desc):
        pair = self.item(b"\x0c" + u2(self.utf8(name)) + u2(self.utf8(desc)))
        return self.item(bytes([tag]) + u2(self.class_item(owner)) + u2(pair))

    def handle(self, kind, at):
        return self.item(b"\x0f" + bytes([kind]) + u2(at))

    def method_type(self, desc):
        return self.item(b"\x10" + u2(self.utf8(desc)))

    def dynamic(self, name, desc):
        pair = self.item(b"\x0c" + u2(self.utf8(name)) + u2(self.utf8(desc)))
        return self.item(b"\x12" + u2(0) + u2(pair))

    # ---- code

    def constant(self, operand):
        kind, _, rest = operand.partition(" ")
        if kind == "string":
            return self.string(rest)
        if kind == "int":
            return self.item(b"\x03" + struct.pack(">i", int(rest)))
        if kind == "long":
            return self.item(b"\x05" + struct.pack(">q", int(rest)), 2)
        if kind == "class":
            return self.class_item(rest)
        if kind == "type":
            return self.method_type(rest)
        if kind == "handle":
            owner, name, desc = self.parts(rest)
            return self.handle(6, self.member(10, owner, name, desc))
        raise ValueError(operand)

    @staticmethod
    def parts(operand):
        head, paren, desc = operand.partition("(")
        owner, _, name = head.rpartition(".")
        return owner, name, paren + desc

    def instruction(self, line, pc):
        """The bytes of an instruction at an offset. Targets of jumps are offsets in the code."""
        name, _, operand = line.strip().partition(" ")
        if name == "bytes":
            return bytes.fromhex(operand)
        op = OPCODES[name]
        head = bytes([op])
        if 178 <= op <= 181:
            member, desc = operand.split(" ")
            owner, _, field = member.rpartition(".")
            return head + u2(self.member(9, owner, field, desc))
        if 182 <= op <= 185:
            of_interface = op == 185 or operand.startswith("interface ")
            if op == 185 and operand.startswith("class "):
                of_interface, operand = False, operand[6:]
            if operand.startswith("interface "):
                operand = operand[10:]
            owner, method, desc = self.parts(operand)
            tail = bytes([words_of(desc) + 1, 0]) if op == 185 else b""
            return head + u2(self.member(11 if of_interface else 10, owner, method, desc)) + tail
        if name == "invokedynamic":
            method, paren, desc = operand.partition("(")
            return head + u2(self.dynamic(method, paren + desc)) + b"\0\0"
        if name in ("new", "anewarray", "checkcast", "instanceof"):
            return head + u2(self.class_item(operand))
        if name == "multianewarray":
            owner, dims = operand.split(" ")
            return head + u2(self.class_item(owner)) + bytes([int(dims)])
        if name == "ldc":
            return head + bytes([self.constant(operand)])
        if name in ("ldc_w", "ldc2_w"):
            return head + u2(self.constant(operand))
        if name in ("goto", "jsr") or 153 <= op <= 166 or op in (198, 199):
            return head + struct.pack(">h", int(operand) - pc)
        if name in ("goto_w", "jsr_w"):
            return head + struct.pack(">i", int(operand) - pc)
        if name == "sipush":
            return head + struct.pack(">h", int(operand))
        if name == "iinc":
            local, step = operand.split(" ")
            return head + bytes([int(local), int(step)])
        return head + (bytes([int(operand)]) if operand else b"")

    def assemble(self, lines):
        code = b""
        for line in lines:
            code += self.instruction(line, len(code))
        return code

    # ---- frames

    def type_bytes(self, kind):
        name, _, rest = kind.partition(" ")
        if name == "Object":
            return b"\x07" + u2(self.class_item(rest))
        if name == "Uninitialized":
            return b"\x08" + u2(int(rest))
        return bytes([TYPES[name]])

    def frame(self, text):
        """`same N`, `one N TYPE`, `chop K N`, `append N TYPE, ..`, `full N LOCALS | STACK`, or `bytes HEX`."""
        name, _, rest = text.partition(" ")
        if name == "bytes":
            return bytes.fromhex(rest)
        if name == "same":
            return bytes([int(rest)])
        if name == "chop":
            count, delta = rest.split(" ")
            return bytes([251 - int(count)]) + u2(int(delta))
        delta, _, kinds = rest.partition(" ")
        if name == "one":
            return bytes([64 + int(delta)]) + self.type_bytes(kinds)
        if name == "append":
            kinds = kinds.split(", ")
            return bytes([251 + len(kinds)]) + u2(int(delta)) + b"".join(map(self.type_bytes, kinds))
        sides = [[kind for kind in side.strip().split(", ") if kind] for side in kinds.split("|")]
        return b"\xff" + u2(int(delta)) + b"".join(
            u2(len(side)) + b"".join(map(self.type_bytes, side)) for side in sides)

    # ---- members

    def field(self, name, desc, flags=PUBLIC):
        self.fields.append(u2(flags) + u2(self.utf8(name)) + u2(self.utf8(desc)) + u2(0))
        return self

    def attribute(self, name, data):
        return u2(self.utf8(name)) + struct.pack(">I", len(data)) + data

    def method(self, name, desc, code=None, flags=PUBLIC, stack=4, locals=None, handlers=(), frames=(), tables=1):
        """A method. Code is a list of instructions, or bytes; a handler is its start, end, target and catch type."""
        attrs = []
        if code is not None:
            raw = code if isinstance(code, bytes) else self.assemble(code)
            if locals is None:
                locals = 4 + words_of(desc)
            content = u2(stack) + u2(locals) + struct.pack(">I", len(raw)) + raw + u2(len(handlers))
            for start, end, target, kind in handlers:
                content += u2(start) + u2(end) + u2(target) + u2(self.class_item(kind) if kind else 0)
            inner = []
            if frames:
                table = u2(len(frames)) + b"".join(map(self.frame, frames))
                inner = [self.attribute("StackMapTable", table)] * tables
            attrs.append(self.attribute("Code", content + u2(len(inner)) + b"".join(inner)))
            self.coded.append((name, desc))
        self.methods.append(
            u2(flags) + u2(self.utf8(name)) + u2(self.utf8(desc)) + u2(len(attrs)) + b"".join(attrs))
        return self

    def init(self, flags=PUBLIC):
        """The constructor that calls the superclass's."""
        return self.method("<init>", "()V", ["aload_0", "invokespecial %s.<init>()V" % self.parent, "return"], flags)

    def main(self, code, **more):
        return self.method("main", MAIN, code, PUBLIC | STATIC, **more)

    # ---- the file

    def ends(self):
        """What stands before the attributes of the class, and behind them."""
        this_class = self.class_item(self.name)
        parent = self.class_item(self.parent) if self.parent else 0
        interfaces = [self.class_item(name) for name in self.interfaces]
        head = b"\xca\xfe\xba\xbe" + u2(self.minor) + u2(self.major) + u2(len(self.items) + 1) + b"".join(self.items)
        head += u2(self.flags) + u2(this_class) + u2(parent) + u2(len(interfaces)) + b"".join(map(u2, interfaces))
        for members in (self.fields, self.methods):
            head += u2(len(members)) + b"".join(members)
        return head

    def data(self):
        return self.ends() + u2(len(self.attrs)) + b"".join(self.attrs)

    def padded_head(self, length):
        """The front of a file of this length whose class has one attribute, of zeros. The rest of the file is zeros."""
        at = self.utf8("Padding")
        head = self.ends() + u2(1) + u2(at)
        return head + struct.pack(">I", length - len(head) - 4)

    def file(self):
        return self.name + ".class"

    def verified(self):
        """The lines of the methods with code."""
        return ["verified %s %s %s" % tuple(shown(word) for word in (self.name, *pair)) for pair in self.coded]


def shown(text):
    """The text with each byte that isn't a printable ASCII character, and each `%`, written as `%` and two digits."""
    return "".join(chr(b) if 33 <= b < 127 and b != 37 else "%%%02X" % b for b in text_bytes(text))


# ---- a small library

RETURNS = {"V": ["return"], "Z": ["iconst_0", "ireturn"], "I": ["iconst_0", "ireturn"]}


def declared(target, name, desc, flags=PUBLIC):
    """A method of the library that returns null, zero or nothing."""
    if flags & ABSTRACT:
        return target.method(name, desc, None, flags)
    return target.method(name, desc, RETURNS.get(desc[desc.index(")") + 1:], ["aconst_null", "areturn"]), flags)


def interface(name, interfaces=()):
    return Class(name, flags=PUBLIC | INTERFACE | ABSTRACT, interfaces=interfaces)


def object_class(finalizes=True, init_flags=PUBLIC):
    made = Class("java/lang/Object", parent=None)
    made.method("<init>", "()V", ["return"], init_flags)
    declared(made, "hashCode", "()I")
    declared(made, "equals", "(Ljava/lang/Object;)Z")
    declared(made, "toString", "()Ljava/lang/String;")
    declared(made, "getClass", "()Ljava/lang/Class;", PUBLIC | FINAL)
    declared(made, "clone", "()Ljava/lang/Object;", PROTECTED)
    if finalizes:
        declared(made, "finalize", "()V", PROTECTED)
    return made


SERIAL = ("java/io/Serializable",)


def library():
    """The classes of the small library, by name."""
    made = {}

    def add(one):
        made[one.name] = one
        return one

    def plain(name, parent="java/lang/Object", flags=PUBLIC | SUPER, interfaces=()):
        return add(Class(name, parent, flags, interfaces))

    add(object_class())
    string = plain("java/lang/String", flags=PUBLIC | FINAL | SUPER, interfaces=SERIAL)
    declared(declared(string, "length", "()I"), "hashCode", "()I")
    of_class = plain("java/lang/Class", flags=PUBLIC | FINAL | SUPER, interfaces=SERIAL)
    declared(of_class, "desiredAssertionStatus", "()Z")
    declared(of_class, "forName", "(Ljava/lang/String;)Ljava/lang/Class;", PUBLIC | STATIC)
    declared(of_class, "newInstance", "()Ljava/lang/Object;")
    plain("java/lang/Throwable", interfaces=SERIAL).init()
    plain("java/lang/Exception", "java/lang/Throwable").init()
    add(interface("java/lang/Cloneable"))
    add(interface("java/io/Serializable"))
    declared(add(interface("java/lang/Runnable")), "run", "()V", PUBLIC | ABSTRACT)
    plain("java/lang/System", flags=PUBLIC | FINAL | SUPER).field("out", "Ljava/io/PrintStream;", PUBLIC | STATIC | FINAL)
    declared(plain("java/io/PrintStream").init(), "println", "(Ljava/lang/String;)V")
    base = plain("lib/Base").init().field("hidden", "I", PROTECTED).field("near", "I", 0)
    declared(declared(base, "m", "()V"), "fixed", "()V", PUBLIC | FINAL)
    declared(declared(base, "kept", "()V", PRIVATE | FINAL), "close", "()V", FINAL)
    declared(declared(base, "made", "()V", PUBLIC | STATIC | FINAL), "guarded", "()V", PROTECTED)
    plain("lib/Part", flags=PUBLIC | SUPER | ABSTRACT).init()
    plain("lib/Near", flags=SUPER).init()
    declared(plain("lib/Bad"), "f", "(Lapp/Hidden;)V", PUBLIC | STATIC)
    return made


# the classes that belong to each program
CORE = ["java/io/Serializable", "java/lang/Class", "java/lang/Cloneable", "java/lang/Object", "java/lang/String",
        "java/lang/Throwable"]
