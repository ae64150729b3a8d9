#!/usr/bin/env python3
"""Rows on `averroes verify`: small applications with the answer that each has to have, by docs/RULES.md.

refused.py PROGRAM [WORD]     runs the program on each row (whose name has WORD), and tells those that differ
refused.py --limits PROGRAM   rows at the limits instead: they take 1 GB of disk for a while, in sparse files
refused.py --write FOLDER     writes the rows, a folder each, with what is expected

The class files are made by class_files.py, and the answers are written down here: the program has no part in either.
A row's answer is what `averroes: ` stands before on standard error, or nothing: then each method with code has its line.
"""
import os
import shutil
import subprocess
import sys
import tempfile

sys.dont_write_bytecode = True
from class_files import *

ROWS = []


def files_of(classes):
    """The files of classes; a pair is a name and the bytes of a file."""
    return dict(one if isinstance(one, tuple) else (one.file(), one.data()) for one in classes)


def row(name, app, answer="", lib=(), without=(), words=None, lines=None):
    """A row: the classes of an application, and what differs from the small library."""
    library_files = files_of(value for key, value in library().items() if key not in without)
    library_files.update(files_of(lib))
    if lines is None:
        lines = [] if answer else [line for one in app if isinstance(one, Class) for line in one.verified()]
    ROWS.append((name, files_of(app), library_files, words or ["verify", "--app", "app", "--lib", "lib"], answer,
                 sorted(line.encode() for line in lines)))


def at(rule, pc=0, owner="app/A", name="main", desc=MAIN):
    """A refusal at a place in a method."""
    return "refused %s %s %s %s %d" % (rule, owner, name, desc, pc)


def plain(name="app/A", parent="java/lang/Object", **more):
    return Class(name, parent, **more)


def main_of(*code, name="app/A", **more):
    return Class(name).main(list(code), **more)


def hello():
    return Class("Hello").init().main(
        ["getstatic java/lang/System.out Ljava/io/PrintStream;", "ldc string hi",
         "invokevirtual java/io/PrintStream.println(Ljava/lang/String;)V", "return"])


# ---- what is accepted, and words

def accepted_rows():
    row("an application without files", [])
    row("one that prints a word", [hello()])
    row("a file for a module is passed over", [plain().init(), ("module-info.class", b""), ("p/module-info.class", b"x")])
    row("other files are passed over", [plain().init(), ("app/notes.txt", b"x"), ("app/A.java", b"x")])
    row("a class without methods", [plain()])
    row("lines are sorted by bytes", [plain("p/B").init(), plain("p/A$B").init(), plain("p/A").init().main(["return"])])
    row("a name outside ASCII is shown", [plain("app/\u00e4 %").init()])
    row("no library folder is named", [], "usage: verify or calls", words=["verify", "--app", "app"])
    row("a plea for help", [], "usage: verify or calls", words=["verify", "--app", "app", "--lib", "lib", "--help"])
    row("another command", [], "usage: verify or calls", words=["standin", "--app", "app", "--lib", "lib", "--out", "o"])
    row("an empty word", [], "usage: verify or calls", words=[""])
    row("a folder that isn't there", [], "read fault ab%20sent", words=["verify", "--app", "ab sent", "--lib", "lib"])
    row("a file of the library that can't be read", [], "read fault java/lang/String.class", without=["java/lang/String"],
        lib=[("java/lang/String.class/x", b"")])
    row("a library that isn't there", [], "refused 6 MissingClass java/io/Serializable",
        words=["verify", "--app", "app", "--lib", "absent"])


# ---- rules 1 to 5: files

def rule_1():
    no = "refused 1 NotClass app/A.class"

    def file(data, what):
        row("1: " + what, [("app/A.class", data)], no)

    def bad(made, what):
        file(made.data(), what)

    def with_item(data):
        made = plain().init()
        made.item(data)
        return made

    whole = hello().data()
    row("1: a byte less", [("Hello.class", whole[:-1])], "refused 1 NotClass Hello.class")
    row("1: a byte more", [("Hello.class", whole + b"\0")], "refused 1 NotClass Hello.class")
    file(b"", "an empty file")
    file(b"\xca\xfe\xba\xbf" + plain().data()[4:], "another first word")
    bad(with_item(b"\x02\0\0"), "a tag of the pool that isn't there")
    bad(with_item(b"\x07\0\0"), "an item that names the index 0")
    bad(with_item(b"\x08\x7f\xff"), "an item that names an index too high")
    bad(with_item(b"\x01\0\x02\xc1\x81"), "a text that is spelled too long")
    bad(with_item(b"\x01\0\x01\0"), "a text with a byte 0")
    bad(with_item(b"\x01\0\x01\xf0"), "a text with a byte that begins none")
    row("1: a text with the two bytes of the character 0", [with_item(b"\x01\0\x02\xc0\x80")])
    for what, name in (("an empty part", "app//B"), ("a dot", "app.B"), ("a semicolon", "app/B;"), ("no letter", ""),
                       ("a last slash", "app/"), ("an array of nothing", "["), ("an array of void", "[V")):
        made = plain()
        made.class_item(name)
        bad(made, "a name of a class with " + what)
    made = plain()
    made.name = "[Lapp/A;"
    bad(made, "the class itself is an array")
    bad(plain(parent="[I"), "the superclass is an array")
    bad(plain(interfaces=["[I"]), "an interface is an array")
    bad(plain().method("a<b", "()V", ["return"]), "a method with a bracket in its name")
    bad(plain().method("a.b", "()V", ["return"]), "a method with a dot in its name")
    bad(plain().field("a/b", "I"), "a field with a slash in its name")
    bad(main_of("invokestatic app/A.<clinit>()V", "return"), "a reference to a class's initialiser")
    for desc in ("V", "[V", "Lapp/A", "", "II", "()V", "L;"):
        bad(plain().field("x", desc), "a field with the descriptor " + (desc or "of no letter"))
    for desc in ("()", "(V)V", "()VV", "I", "(", "()[V"):
        bad(plain().method("f", desc, ["return"], locals=9), "a method with the descriptor " + desc)
    row("1: a field of 255 dimensions", [plain().field("x", "[" * 255 + "I")])
    bad(plain().field("x", "[" * 256 + "I"), "a field of 256 dimensions")
    most = "(" + "I" * 255 + ")V"
    row("1: 255 words", [plain().method("f", most, ["return"], PUBLIC | STATIC, locals=255)])
    bad(plain().method("f", most, ["return"], locals=256), "255 words and a receiver")
    bad(plain().method("f", "(" + "J" * 128 + ")V", ["return"], PUBLIC | STATIC, locals=256), "256 words in longs")
    for words, good in ((255, True), (256, False)):
        made = plain()
        made.member(10, "app/A", "f", "(" + "I" * words + ")V")
        row("1: a reference to a method of %d words" % words, [made], "" if good else no)
    bad(plain().field("x", "I").field("x", "I"), "a field twice")
    row("1: two fields of one name", [plain().field("x", "I").field("x", "J")])
    bad(plain().init().init(), "a method twice")
    bad(plain().method("f", "()V", ["return"], PUBLIC | ABSTRACT), "an abstract method with code")
    bad(plain().method("f", "()V", ["return"], PUBLIC | NATIVE), "a native method with code")
    bad(plain().method("f", "()V"), "a method without code")
    bad(plain().method("f", "()V", None, PUBLIC | STATIC | ABSTRACT), "a method that is static and abstract")
    bad(main_of("nop", "return", frames=["same 1"], tables=2), "two tables of frames")
    bad(main_of("nop", "return", frames=["bytes 80"]), "a frame of the kind 128")
    bad(main_of("nop", "return", frames=["bytes f60001"]), "a frame of the kind 246")
    bad(main_of("nop", "return", frames=["bytes 4109"]), "a type of the kind 9")
    bad(plain().main(b""), "a code of no byte")
    bad(plain().main(b"\0" * 65535 + b"\xb1"), "a code of 65,536 bytes")
    row("1: a code of 65,535 bytes", [plain().main(b"\0" * 65534 + b"\xb1")])
    bad(plain().method("f", "()V", ["return"], handlers=[(0, 1, 0, "x;")]), "a handler of a name that is none")
    for kind in (0, 10):
        made = plain()
        made.handle(kind, made.member(10, "app/A", "f", "()V"))
        bad(made, "a handle of the kind %d" % kind)
    made = plain()
    made.handle(5, made.member(9, "app/A", "x", "I"))
    bad(made, "a handle of a method that names a field")
    made = plain()
    made.member(10, "app/A", "f", "I")
    bad(made, "a reference to a method with the descriptor of a field")
    made = plain()
    made.member(9, "app/A", "f", "()V")
    bad(made, "a reference to a field with the descriptor of a method")


def rules_2_to_5():
    for major in (44, 45, 49, 53, 65):
        row("2: version %d" % major, [plain(major=major).init()], "refused 2 Version app/A.class")
    for major in (50, 51, 52):
        row("2: version %d" % major, [plain(major=major).init()])
    row("2: any minor version", [plain(minor=65535).init()])
    own = plain(major=50).method("<clinit>", "()V", ["return"], 0)
    row("2: an initialiser that isn't static, in version 50", [own], "refused 2 Version app/A.class")
    row("2: a static one, in version 50", [plain(major=50).method("<clinit>", "()V", ["return"], STATIC)])
    row("3: a class of another name", [("app/B.class", plain().data())], "refused 3 NameMismatch app/B.class")
    row("3: a class below its folder", [("A.class", plain().data())], "refused 3 NameMismatch A.class")
    row("3: a name in another case", [("app/a.class", plain().data())], "refused 3 NameMismatch app/a.class")
    row("4: a class in both folders", [plain().init()], "refused 4 InBoth app/A.class", [plain().init()])
    row("4: a file of that name that is no class", [plain().init()], "refused 4 InBoth app/A.class", [("app/A.class", b"")])
    row("4: a file that nothing names", [plain().init()], lib=[("app/AA.class", b"")])
    for name in ("java/X", "java/lang/X", "averroes/X", "app/X$averroes$any", "averroes$", "app/xaverroes$"):
        row("5: " + name, [plain(name).init()], "refused 5 ReservedName %s.class" % name)
    for name in ("javax/X", "java", "Java/X", "app/java/X", "averroes", "averroesx/X", "app/averroes/X", "app/averroes"):
        row("5: not " + name, [plain(name).init()])


# ---- rules 21, 6 and 7: the library

def rule_21():
    def bad(what, name, lib, app=None):
        row("21: " + what, [app or plain().init()], "refused 21 LibraryForm " + name, [lib])

    whole = library()
    cut = whole["java/lang/Object"].data()[:-1]
    bad("a byte less", "java/lang/Object", ("java/lang/Object.class", cut))
    bad("a byte more", "java/lang/String", ("java/lang/String.class", whole["java/lang/String"].data() + b"\0"))
    bad("another name", "java/lang/Throwable", ("java/lang/Throwable.class", whole["lib/Base"].data()))
    for major in (44, 53):
        made = library()["java/lang/Throwable"]
        made.major = major
        bad("version %d" % major, "java/lang/Throwable", made)
    for major in (45, 49, 52):
        made = library()["java/lang/Throwable"]
        made.major = major
        row("21: version %d" % major, [plain().init()], lib=[made])
    for name in ("averroes/Base", "lib/X$averroes$any"):
        bad("a reserved name, " + name, name, Class(name).init(), Class("app/A", name).init())
    row("21: a class that isn't met", [plain().init()], lib=[("lib/Base.class", b"")])
    bad("no finalize", "java/lang/Object", object_class(finalizes=False))
    bad("a private constructor of Object", "java/lang/Object", object_class(init_flags=PRIVATE))
    bad("a static constructor of Object", "java/lang/Object", object_class(init_flags=PUBLIC | STATIC))
    bad("a static finalize", "java/lang/Object", declared(
        object_class(finalizes=False), "finalize", "()V", PROTECTED | STATIC))
    bad("an abstract finalize", "java/lang/Object", declared(
        object_class(finalizes=False), "finalize", "()V", PROTECTED | ABSTRACT))
    bad("a private finalize", "java/lang/Object", declared(object_class(finalizes=False), "finalize", "()V", PRIVATE))
    for name in ("java/lang/Cloneable", "java/io/Serializable"):
        bad(name + " is a class", name, Class(name))
    for name in ("java/lang/String", "java/lang/Class", "java/lang/Throwable"):
        bad(name + " is an interface", name, interface(name))


def rule_6():
    no = "refused 6 MissingClass lib/Absent"

    def bad(what, *app, lib=()):
        row("6: " + what, list(app), no, lib)

    for name in CORE:
        row("6: no " + name, [], "refused 6 MissingClass " + name, without=[name])
    bad("named by new", main_of("new lib/Absent", "pop", "return"))
    bad("named by a cast to an array", main_of("aconst_null", "checkcast [[Llib/Absent;", "pop", "return"))
    bad("named by a constant", main_of("ldc class lib/Absent", "pop", "return"))
    bad("named by a call", main_of("invokestatic lib/Absent.f()V", "return"))
    bad("named by a call's descriptor", main_of("aconst_null", "invokestatic lib/Base.f(Llib/Absent;)V", "return"))
    bad("named by a read of a field", main_of("getstatic lib/Absent.x I", "pop", "return"))
    bad("the type of a field that is read", main_of("getstatic lib/Base.x Llib/Absent;", "pop", "return"))
    bad("the type of a field", plain().field("x", "[Llib/Absent;"))
    bad("the type of a parameter", plain().method("f", "(Llib/Absent;)V", ["return"]))
    bad("the type of a result", plain().method("f", "()Llib/Absent;", ["aconst_null", "areturn"]))
    bad("a superclass", plain(parent="lib/Absent"))
    bad("an interface", plain(interfaces=["lib/Absent"]))
    bad("a type that is caught", main_of("nop", "return", "pop", "return", handlers=[(0, 1, 2, "lib/Absent")],
                                         frames=["one 2 Object lib/Absent"]))
    bad("a type of a frame", main_of("aconst_null", "astore_1", "return", frames=["append 2 Object lib/Absent"]))
    bad("above a class of the library", Class("app/A", "lib/Low"), lib=[Class("lib/Low", "lib/Absent")])
    uses = declared(Class("lib/Uses"), "f", "()Llib/Absent;", PUBLIC | STATIC)
    bad("in a member that is called", main_of("invokestatic lib/Uses.f()Llib/Absent;", "pop", "return"), lib=[uses])
    row("6: in a member that isn't met", [main_of("aconst_null", "checkcast lib/Uses", "pop", "return")], lib=[uses])
    virtual = declared(Class("lib/Uses").init(), "f", "()Llib/Absent;")
    bad("in a method that a subclass of the application may override",
        Class("app/A", "lib/Uses").init(), lib=[virtual])
    row("6: in a private method of a superclass", [Class("app/A", "lib/Uses").init()],
        lib=[declared(Class("lib/Uses").init(), "f", "()Llib/Absent;", PRIVATE)])


def rule_7():
    hidden = Class("app/Hidden")
    calls = main_of("aconst_null", "invokestatic lib/Bad.f(Lapp/Hidden;)V", "return", name="app/W")
    row("7: in a member that is called", [hidden, calls], "refused 7 LibraryNamesApplication lib/Bad")
    cast = main_of("aconst_null", "checkcast lib/Bad", "pop", "return", name="app/W")
    row("7: in a member that isn't met", [hidden, cast])
    low = main_of("aconst_null", "checkcast lib/Low", "pop", "return")
    row("7: a superclass", [low], "refused 7 LibraryNamesApplication lib/Low", [Class("lib/Low", "app/A")])
    row("7: an interface", [low, interface("app/I")], "refused 7 LibraryNamesApplication lib/Low",
        [Class("lib/Low", interfaces=["app/I"])])
    below = main_of("aconst_null", "checkcast lib/Lower", "pop", "return")
    row("7: above a superclass", [below], "refused 7 LibraryNamesApplication lib/Upper",
        [Class("lib/Lower", "lib/Upper"), Class("lib/Upper", "app/A")])


# ---- rules 8, 9 and 10: supertypes

def rules_8_to_10():
    row("8: its own superclass", [plain(parent="app/A")], "refused 8 Circular app/A")
    row("8: two classes", [Class("app/B", "app/A"), Class("app/A", "app/B")], "refused 8 Circular app/A")
    row("8: a class below a circle isn't in it", [Class("app/A", "app/B"), Class("app/B", "app/B")],
        "refused 8 Circular app/B")
    row("8: interfaces", [interface("app/I", ["app/J"]), interface("app/J", ["app/I"])], "refused 8 Circular app/I")
    row("8: in the library", [plain(parent="lib/Y")], "refused 8 Circular lib/X",
        [Class("lib/X", "lib/Y"), Class("lib/Y", "lib/X")])

    def nine(what, *app, at="app/A", lib=()):
        row("9: " + what, list(app), "refused 9 SuperKind " + at, lib)

    nine("an interface above", plain(parent="java/lang/Runnable"))
    nine("a final class above", plain(parent="java/lang/String"))
    nine("an interface of the application above", plain(parent="app/I"), interface("app/I"))
    nine("a final class of the application above", plain(parent="app/B"), plain("app/B", flags=PUBLIC | FINAL))
    nine("none above", plain(parent=None))
    nine("a class as an interface", plain(interfaces=["lib/Base"]))
    nine("an interface below another class", plain(parent="lib/Base", flags=PUBLIC | INTERFACE | ABSTRACT))
    nine("in the library", plain(parent="lib/X"), at="lib/X", lib=[Class("lib/X", "java/lang/String")])

    def ten(what, *app, at="app/A"):
        row("10: " + what, list(app), "refused 10 FinalOverridden " + at)

    def low(name, flags=PUBLIC, desc="()V"):
        return Class("app/A", "lib/Base").init().method(name, desc, ["return"], flags)

    ten("a final method of the library", low("fixed"))
    ten("getClass", plain().method("getClass", "()Ljava/lang/Class;", ["aconst_null", "areturn"]))
    ten("a final method of the application", plain("app/B", "app/A").method("f", "()V", ["return"]),
        plain("app/A").init().method("f", "()V", ["return"], PUBLIC | FINAL), at="app/B")
    ten("two classes above", plain("app/C", "app/B").method("f", "()V", ["return"]), plain("app/B", "app/A"),
        plain("app/A").init().method("f", "()V", ["return"], PUBLIC | FINAL), at="app/C")
    row("10: a final method that isn't overridden", [Class("app/A", "lib/Base").init()])
    row("10: another descriptor", [low("fixed", desc="(I)V")])
    row("10: a private method above", [low("kept")])
    row("10: one for another package", [low("close")])
    row("10: a static method above", [low("made", PUBLIC | STATIC)])


# ---- rules on methods

def rule_11():
    no = "11 Unresolved"

    def bad(what, pc, *code, also=(), lib=(), major=52, **more):
        made = Class("app/A", major=major).field("own", "I").field("shared", "I", PUBLIC | STATIC)
        made.method("f", "()V", ["return"]).method("g", "()V", ["return"], PUBLIC | STATIC)
        row("11: " + what, [made.main(list(code), **more), *also], at(no, pc), lib)

    bad("a field that isn't there", 0, "getstatic app/A.none I", "pop", "return")
    bad("a field of another type", 0, "getstatic app/A.shared J", "pop2", "return")
    bad("a static read of a field of objects", 0, "getstatic app/A.own I", "pop", "return")
    bad("a static write of a field of objects", 1, "iconst_0", "putstatic app/A.own I", "return")
    bad("a read of an object's field that is static", 1, "aconst_null", "getfield app/A.shared I", "pop", "return")
    bad("a method that isn't there", 0, "invokestatic app/A.none()V", "return")
    bad("a method of the library that isn't there", 0, "invokestatic lib/Base.none()V", "return")
    bad("a static call of a method of objects", 0, "invokestatic app/A.f()V", "return")
    bad("a call on an object of a static method", 1, "aconst_null", "invokevirtual app/A.g()V", "return")
    bad("a special call of a static method", 1, "aconst_null", "invokespecial app/A.g()V", "return")
    bad("a class's method by an interface's name", 1, "aconst_null", "invokevirtual java/lang/Runnable.run()V", "return")
    bad("an interface's method by a class's name", 1, "aconst_null", "invokeinterface lib/Base.m()V", "return")
    bad("new of an abstract class", 0, "new lib/Part", "pop", "return")
    bad("new of an interface", 0, "new java/lang/Runnable", "pop", "return")
    bad("new of an abstract class of the application", 0, "new app/B", "pop", "return",
        also=[Class("app/B", flags=PUBLIC | SUPER | ABSTRACT)])
    bad("a constructor that is only inherited", 4, "new app/B", "dup", "invokespecial app/B.<init>()V", "pop", "return",
        also=[Class("app/B", "app/C"), Class("app/C").init()])
    bad("a method of an array", 1, "aconst_null", "invokevirtual [I.none()V", "return")
    static_i = interface("app/I").method("s", "()V", ["return"], PUBLIC | STATIC)
    bad("an interface's static method in version 51", 0, "invokestatic interface app/I.s()V", "return", also=[static_i],
        major=51)
    row("11: an interface's static method in version 52",
        [main_of("invokestatic interface app/I.s()V", "return"), static_i])
    row("11: the copy of an array", [main_of(
        "iconst_0", "newarray 10", "invokevirtual [I.clone()Ljava/lang/Object;", "pop", "return")])
    row("11: what is found", [Class("app/A", "lib/Base").init().method("f", "()V", [
        "aload_0", "invokevirtual app/A.m()V", "aload_0", "invokespecial lib/Base.m()V", "return"])])


def rule_12():
    no = "12 NoAccess"
    other = Class("app/B").field("x", "I", PRIVATE | STATIC).init(PRIVATE)
    other.method("p", "()V", ["return"], PRIVATE | STATIC)
    low = Class("app/B", "lib/Base").init()

    def bad(what, pc, *code, also=(), parent="java/lang/Object"):
        row("12: " + what, [Class("app/A", parent).main(list(code)), *also], at(no, pc))

    bad("a private field", 0, "getstatic app/B.x I", "pop", "return", also=[other])
    bad("a private method", 0, "invokestatic app/B.p()V", "return", also=[other])
    bad("a private constructor", 4, "new app/B", "dup", "invokespecial app/B.<init>()V", "pop", "return", also=[other])
    bad("new of a class of another package", 0, "new lib/Near", "pop", "return")
    bad("a cast to a class of another package", 1, "aconst_null", "checkcast lib/Near", "pop", "return")
    bad("a constant of a class of another package", 0, "ldc class lib/Near", "pop", "return")
    bad("a field for its package", 4, "aconst_null", "checkcast lib/Base", "getfield lib/Base.near I", "pop", "return")
    bad("a protected field of another class", 4, "aconst_null", "checkcast lib/Base", "getfield lib/Base.hidden I",
        "pop", "return")
    bad("a protected method by the name of a class beside", 4, "aconst_null", "checkcast app/B",
        "invokevirtual app/B.guarded()V", "return", also=[low], parent="lib/Base")
    bad("the copy of another object", 1, "aconst_null", "invokevirtual app/C.clone()Ljava/lang/Object;", "pop", "return",
        also=[Class("app/C")])
    row("12: protected members of its own", [Class("app/A", "lib/Base").init().method("f", "()V", [
        "aload_0", "getfield app/A.hidden I", "pop", "aload_0", "invokevirtual app/A.guarded()V", "return"])])
    row("12: members for the package of its own", [Class("app/C").field("x", "I", STATIC), main_of(
        "getstatic app/C.x I", "pop", "return")])


REFLECTION = [
    ("java/lang/Class", "forName"), ("java/lang/Class", "newInstance"), ("java/lang/ClassLoader", "loadClass"),
    ("java/lang/reflect/Method", "invoke"), ("java/lang/reflect/Constructor", "newInstance"),
    ("java/lang/reflect/Proxy", "newProxyInstance"), ("java/lang/reflect/Array", "newInstance"),
    ("java/lang/reflect/Field", "get"), ("java/lang/reflect/Field", "set"),
    ("java/io/ObjectInputStream", "readObject"), ("java/util/ServiceLoader", "load"),
    ("java/lang/invoke/MethodHandle", "invoke"), ("java/lang/invoke/MethodHandle", "invokeExact")]


def rules_13_to_16():
    row("13: invokedynamic", [main_of("invokedynamic run()Ljava/lang/Runnable;", "pop", "return", name="app/J")],
        at("13 InvokeDynamic", owner="app/J"))
    row("13: what it names isn't asked for", [main_of("invokedynamic run()Llib/Absent;", "pop", "return")],
        at("13 InvokeDynamic"))
    row("13: a constant of a method's type", [main_of("ldc type ()V", "pop", "return")], at("13 InvokeDynamic"))
    row("13: a constant of a handle", [main_of("nop", "ldc handle app/A.main" + MAIN, "pop", "return")],
        at("13 InvokeDynamic", 1))
    row("14: a class by its name", [main_of(
        "ldc string app.X", "invokestatic java/lang/Class.forName(Ljava/lang/String;)Ljava/lang/Class;", "pop",
        "return", name="app/Y")], at("14 Reflection", 2, "app/Y"))
    row("14: another method of a class", [Class("app/Y").main([
        "ldc class app/Y", "invokevirtual java/lang/Class.desiredAssertionStatus()Z", "pop", "return"])])
    for owner, name in REFLECTION:
        made = library().get(owner) or Class(owner)
        declared(made, name, "(J)V", PUBLIC | STATIC)
        row("14: %s.%s" % (owner, name), [main_of("lconst_0", "invokestatic %s.%s(J)V" % (owner, name), "return")],
            at("14 Reflection", 1), [made])
    loader = declared(Class("java/lang/ClassLoader"), "loadClass", "()V", PUBLIC | STATIC)
    row("14: by the name of a class below", [main_of("invokestatic lib/Loader.loadClass()V", "return")],
        at("14 Reflection"), [loader, Class("lib/Loader", "java/lang/ClassLoader")])
    row("14: a method of that name elsewhere", [Class("app/A").method("forName", "()V", ["return"], PUBLIC | STATIC).main([
        "invokestatic app/A.forName()V", "return"])])
    row("15: a native method", [plain().init().method("n", "(I)V", None, PUBLIC | NATIVE)],
        at("15 NativeMethod", name="n", desc="(I)V"))
    row("15: native methods of the library", [plain().init()],
        lib=[library()["java/lang/Throwable"].method("n", "()V", None, PUBLIC | NATIVE)])
    row("16: jsr", [main_of("jsr 4", "return", "astore_1", "ret 1")], at("16 Subroutine"))
    row("16: jsr_w", [main_of("nop", "jsr_w 7", "return", "astore_1", "return")], at("16 Subroutine", 1))
    row("16: ret", [main_of("nop", "ret 1")], at("16 Subroutine", 1))


def rule_17():
    no = "17 CodeForm"

    def bad(what, pc, *code, **more):
        row("17: " + what, [main_of(*code, **more)], at(no, pc))

    def patched(what, pc, place, byte, *code):
        made = Class("app/A")
        raw = bytearray(made.assemble(code))
        raw[place] = byte
        row("17: " + what, [made.main(bytes(raw))], at(no, pc))

    bad("an opcode that isn't there", 0, "bytes ca", "return")
    bad("one behind the last return", 1, "return", "bytes ca")
    bad("an operand cut off", 0, "bytes 10")
    bad("a second operand cut off", 1, "nop", "bytes b800")
    bad("nothing is asked of a library for such a code", 4, "new lib/Absent", "pop", "bytes ff")
    bad("a jump into an instruction", 2, "iconst_0", "pop", "goto 3", "return")
    bad("a jump behind the code", 0, "goto 3")
    bad("a jump before the code", 1, "nop", "goto -1")
    bad("the local at max locals", 1, "iconst_0", "istore_1", "return", locals=1)
    row("17: the last local", [main_of("iconst_0", "istore_1", "return", locals=2)])
    bad("iinc of the local at max locals", 2, "iconst_0", "istore_1", "iinc 2 1", "return", locals=2)
    bad("ret of the local at max locals", 0, "ret 1", locals=1)
    bad("a call of a text", 0, "bytes b80001", "return")
    bad("a call of the index 0", 0, "bytes b80000", "return")
    bad("a long load of a word", 0, "ldc2_w int 7", "pop2", "return")
    bad("a short load of two words", 0, "ldc long 7", "pop", "return")
    bad("invokeinterface of a class's method", 1, "aconst_null", "invokeinterface class java/lang/Runnable.run()V",
        "return")
    bad("invokevirtual of an interface's method", 1, "aconst_null", "invokevirtual interface java/lang/Runnable.run()V",
        "return")
    run = ("aconst_null", "invokeinterface java/lang/Runnable.run()V", "return")
    patched("other words of arguments", 1, 4, 2, *run)
    patched("a last byte that isn't 0", 1, 5, 1, *run)
    row("17: a call of an interface's method", [main_of(*run)])
    bad("a field of an array", 1, "aconst_null", "getfield [I.length I", "pop", "return")
    bad("new of an array", 0, "new [I", "pop", "return")
    bad("an array of 256 dimensions", 1, "iconst_0", "anewarray %sI" % ("[" * 255), "pop", "return")
    row("17: an array of 255 dimensions", [main_of("iconst_0", "anewarray %sI" % ("[" * 254), "pop", "return")])
    bad("an array of no given dimensions", 0, "multianewarray [I 0", "pop", "return")
    bad("more dimensions than the type has", 2, "iconst_0", "iconst_0", "multianewarray [I 2", "pop", "return")
    bad("an array of a kind that isn't there", 1, "iconst_0", "newarray 3", "pop", "return")
    bad("one above those that are", 1, "iconst_0", "newarray 12", "pop", "return")
    bad("wide before what has no wide form", 1, "nop", "bytes c460", "return")
    # at 1: padding to 4, then default, low and high, or default and the count
    bad("a tableswitch from 1 to 0", 1, "iconst_0", "bytes aa 0000 00000013 00000001 00000000 00000013", "return")
    bad("a lookupswitch of which the values fall", 1, "iconst_0",
        "bytes ab 0000 0000001b 00000002 00000002 0000001b 00000001 0000001b", "return")
    bad("a lookupswitch of which the values are the same", 1, "iconst_0",
        "bytes ab 0000 0000001b 00000002 00000001 0000001b 00000001 0000001b", "return")
    bad("a negative count", 1, "iconst_0", "bytes ab 0000 0000000b ffffffff", "return")
    code = ("bipush 1", "pop", "return", "pop", "return")
    caught = ["one 4 Object java/lang/Throwable"]
    bad("a handler of no instruction", 0, *code, handlers=[(0, 0, 4, None)], frames=caught)
    bad("a handler's start within an instruction", 1, *code, handlers=[(1, 2, 4, None)], frames=caught)
    bad("a handler's end within an instruction", 0, *code, handlers=[(0, 1, 4, None)], frames=caught)
    bad("a handler's end behind the code", 2, *code, handlers=[(2, 7, 4, None)], frames=caught)
    bad("a handler within an instruction", 2, *code, handlers=[(2, 3, 1, None)], frames=caught)
    bad("a handler behind the code", 2, *code, handlers=[(2, 3, 6, None)], frames=caught)
    bad("a caught type that is an array", 2, *code, handlers=[(2, 3, 4, "[I")], frames=caught)
    row("17: a handler up to the code's end", [main_of(*code, handlers=[(0, 6, 4, None)], frames=caught)])


def rule_18():
    no = "18 StackMap"

    def bad(what, pc, *code, **more):
        row("18: " + what, [main_of(*code, **more)], at(no, pc))

    bad("a frame within an instruction", 1, "bipush 1", "pop", "return", frames=["same 1"])
    bad("a frame behind the code", 3, "nop", "nop", "return", frames=["same 3"])
    bad("the first of two that fail", 1, "sipush 1", "pop", "return", frames=["same 1", "same 0"])
    bad("more locals fewer than there are", 2, "nop", "nop", "return", frames=["chop 2 2"])
    row("18: as many fewer as there are", [main_of("nop", "nop", "return", frames=["chop 1 2"])])
    bad("a local more than max locals", 1, "nop", "return", locals=1, frames=["append 1 Top"])
    row("18: a local more", [main_of("nop", "return", locals=2, frames=["append 1 Top"])])
    bad("two words where one is left", 1, "nop", "return", locals=2, frames=["append 1 Long"])
    bad("a word more than max stack", 1, "nop", "return", stack=0, frames=["one 1 Integer"])
    bad("a word more than max stack by a long", 1, "nop", "return", stack=1, frames=["one 1 Long"])
    bad("a full frame over max locals", 1, "nop", "return", locals=1, frames=["full 1 Top, Top |"])
    bad("an object that is made where no new stands", 1, "nop", "return", frames=["append 1 Uninitialized 0"])
    bad("one made behind the code", 1, "nop", "return", frames=["append 1 Uninitialized 9"])


def rule_19():
    no = "19 TypeRule"

    def bad(what, pc, *code, **more):
        row("19: " + what, [main_of(*code, **more)], at(no, pc))

    def row_in(what, made, pc, name="f", desc="()V"):
        row("19: " + what, [made], at(no, pc, name=name, desc=desc))

    step = ("iconst_0", "istore_1", "iinc 1 1", "goto 2")
    row("19: a loop over a text", [Class("app/S").main(list(step), locals=2, frames=["append 2 Object java/lang/String"])],
        at(no, 1, "app/S"))
    row("19: a loop over an int", [Class("app/S").main(list(step), locals=2, frames=["append 2 Integer"])])
    bad("nothing to take", 0, "pop", "return")
    bad("a word more than max stack", 1, "iconst_0", "iconst_0", "pop", "pop", "return", stack=1)
    row("19: as many words as max stack", [main_of("iconst_0", "iconst_0", "pop", "pop", "return", stack=2)])
    bad("no end", 0, "nop")
    bad("the half of a long", 1, "lconst_0", "pop", "pop", "return")
    bad("the second word of a long at max locals", 1, "lconst_0", "lstore_1", "return", locals=2)
    row("19: a long in the last two locals", [main_of("lconst_0", "lstore_1", "return", locals=3)])
    bad("the sum of an array", 2, "aload_0", "iconst_0", "iadd", "pop", "return")
    bad("a local that holds nothing", 0, "iload 1", "pop", "return", locals=2)
    bad("a throw of an array", 1, "aload_0", "athrow")
    bad("a jump to a place without a frame", 1, "iconst_0", "ifeq 5", "return", "return")
    row("19: a jump to a place that is reached from before it", [main_of("iconst_0", "ifeq 5", "nop", "return")])
    row("19: a jump back to the start", [main_of("nop", "goto 0")])
    bad("a frame that asks for more than is there", 0, "nop", "return", stack=1, frames=["one 1 Integer"])
    bad("an object before its constructor was called", 3, "new app/A", "invokevirtual app/A.hashCode()I", "pop", "return")
    made = Class("app/A").method("g", "(I)V", ["return"], PUBLIC | STATIC)
    row("19: an argument of another kind", [made.main(["aload_0", "invokestatic app/A.g(I)V", "return"])], at(no, 1))
    made = Class("app/A").field("x", "I", PUBLIC | STATIC)
    row("19: a field of another kind", [made.main(["aload_0", "putstatic app/A.x I", "return"])], at(no, 1))
    row_in("no result where one is due", plain().method("f", "()I", ["return"]), 0, desc="()I")
    row_in("a result where none is due", plain().method("f", "()V", ["aconst_null", "areturn"]), 1)
    row_in("a constructor that calls none", plain().method("<init>", "()V", ["return"]), 0, "<init>")
    row_in("a constructor that calls two", plain().method("<init>", "()V", [
        "aload_0", "invokespecial java/lang/Object.<init>()V"] * 2 + ["return"]), 5, "<init>")
    row("19: a constructor that uses its object afterwards", [plain().method("f", "()V", ["return"]).method("<init>", "()V", [
        "aload_0", "invokespecial java/lang/Object.<init>()V", "aload_0", "invokevirtual app/A.f()V", "return"])])
    row_in("a constructor that uses its object before", plain().method("<init>", "()V", [
        "aload_0", "invokevirtual app/A.hashCode()I", "pop", "aload_0", "invokespecial java/lang/Object.<init>()V",
        "return"]), 1, "<init>")
    guarded = ["aconst_null", "checkcast %s", "invokevirtual lib/Base.guarded()V", "return"]
    row_in("a protected method on an object that may be of a class beside", Class("app/A", "lib/Base").method(
        "f", "()V", [line.replace("%s", "lib/Base") for line in guarded]), 4)
    row("19: a protected method on an object of its own", [Class("app/A", "lib/Base").method(
        "f", "()V", [line.replace("%s", "app/A") for line in guarded])])
    bad("a caught type that can't be thrown", 0, "nop", "return", "pop", "return", handlers=[(0, 1, 2, "lib/Base")],
        frames=["one 2 Object lib/Base"])
    bad("a frame of a handler that asks for more", 0, "nop", "return", "pop", "return", handlers=[(0, 1, 2, None)],
        frames=["one 2 Object java/lang/Exception"])


# ---- the order: of two neighbours that both fail the first is told

def order_rows():
    def pair(what, app, answer, **more):
        row("order: " + what, app, answer, **more)

    bad_kind = lambda name: main_of("pop", "return", name=name)
    pair("1 before 2", [("app/A.class", plain(major=53).data()[:-1])], "refused 1 NotClass app/A.class")
    pair("2 before 3", [("app/B.class", plain(major=53).data())], "refused 2 Version app/B.class")
    pair("3 before 4", [("app/B.class", plain().data())], "refused 3 NameMismatch app/B.class",
         lib=[("app/B.class", b"")])
    pair("4 before 5", [plain("java/X")], "refused 4 InBoth java/X.class", lib=[("java/X.class", b"")])
    pair("files by the bytes of their names", [("A.class", b""), ("A$B.class", b"")], "refused 1 NotClass A$B.class")
    pair("each file through all rules", [plain("averroes/A"), ("b/B.class", b"")],
         "refused 5 ReservedName averroes/A.class")
    cut = [("java/lang/Object.class", b"")]
    pair("5 before 21", [plain("java/X")], "refused 5 ReservedName java/X.class", lib=cut)
    uses = main_of("new lib/Absent", "pop", "new lib/Z", "pop", "return")
    pair("21 before 6", [uses], "refused 21 LibraryForm lib/Z", lib=[("lib/Z.class", b"")])
    pair("21 at the least name", [main_of("new lib/Y", "pop", "new lib/X", "pop", "return")],
         "refused 21 LibraryForm lib/X", lib=[("lib/X.class", b""), ("lib/Y.class", b"")])
    pair("6 at the least name", [main_of("new lib/Y", "pop", "new lib/X", "pop", "return")],
         "refused 6 MissingClass lib/X")
    pair("6 before 7", [Class("app/Hidden"), main_of(
        "aconst_null", "invokestatic lib/Bad.f(Lapp/Hidden;)V", "new lib/Zero", "pop", "return")],
        "refused 6 MissingClass lib/Zero")
    pair("7 before 8", [Class("app/Hidden"), plain("app/A", "app/A"), main_of(
        "aconst_null", "invokestatic lib/Bad.f(Lapp/Hidden;)V", "return", name="app/W")],
        "refused 7 LibraryNamesApplication lib/Bad")
    pair("8 before 9", [plain("app/A", "java/lang/String"), plain("app/Z", "app/Z")], "refused 8 Circular app/Z")
    overrides = lambda name: Class(name, "lib/Base").method("fixed", "()V", ["return"])
    pair("9 before 10", [overrides("app/A"), plain("app/Z", "java/lang/String")], "refused 9 SuperKind app/Z")
    pair("10 before 15", [overrides("app/Z"), plain("app/A").method("n", "()V", None, NATIVE)],
         "refused 10 FinalOverridden app/Z")
    pair("10 at the least name", [overrides("app/C"), overrides("app/B")], "refused 10 FinalOverridden app/B")
    pair("classes by their names", [bad_kind("app/B"), bad_kind("app/A"), plain("app/C").method("n", "()V", None, NATIVE)],
         at("19 TypeRule"))
    pair("methods in the order of the file", [plain().main(["pop", "return"]).method("a", "()V", None, NATIVE)],
         at("19 TypeRule"))
    pair("15 before 17 in the order of the file", [plain().method("n", "()V", None, NATIVE).main(["bytes ff"])],
         at("15 NativeMethod", name="n", desc="()V"))
    pair("17 before 16", [main_of("jsr 3", "return", "bytes ff")], at("17 CodeForm", 4))
    pair("16 before 13", [main_of("invokedynamic f()V", "jsr 8", "return")], at("16 Subroutine", 5))
    pair("13 before 11", [main_of("invokestatic app/A.none()V", "invokedynamic f()V", "return")],
         at("13 InvokeDynamic", 3))
    pair("11 before 12", [main_of("new lib/Near", "pop", "invokestatic app/A.none()V", "return")],
         at("11 Unresolved", 4))
    name = "invokestatic java/lang/Class.forName(Ljava/lang/String;)Ljava/lang/Class;"
    pair("12 before 14", [main_of("aconst_null", name, "pop", "new lib/Near", "pop", "return")], at("12 NoAccess", 5))
    pair("14 before 18", [main_of("aconst_null", name, "pop", "return", frames=["same 2"])], at("14 Reflection", 1))
    pair("18 before 19", [main_of("pop", "bipush 1", "return", frames=["same 2"])], at("18 StackMap", 2))
    pair("the least offset", [main_of("invokestatic app/A.b()V", "invokestatic app/A.a()V", "return")],
         at("11 Unresolved"))


# ---- limits: files of zeros, which take little of a disk

class Sparse:
    """A file of this length: a front, and zeros."""

    def __init__(self, head, length):
        self.head, self.length = head, length


def padded(name, length):
    """The file of a class of this length."""
    return name + ".class", Sparse(Class(name).padded_head(length), length)


def long_methods(count, last="return"):
    """Classes of this many instructions, all of one byte."""
    made, number = [], 0
    while count:
        length = min(count, 65535)
        code = b"\0" * (length - 1) + bytes([OPCODES[last]])
        made.append(Class("app/N%02d" % number).method("f", "()V", code, PUBLIC | STATIC, stack=0, locals=0))
        count -= length
        number += 1
    return made


def named_fields(count):
    """A class with fields of as many types of the library, none of which is there."""
    made = Class("app/A")
    for number in range(count):
        made.field("x%d" % number, "Llib/C%05d;" % number)
    return made


MOST_FILE, MOST_APP, MOST_LIBRARY = 16777216, 67108864, 268435456


def limit_rows():
    def files(count, length):
        return [("f%05d.class" % number, Sparse(b"", length)) for number in range(count)]

    row("20,000 files", files(20000, 0), "refused 1 NotClass f00000.class")
    row("20,001 files", files(20001, 0), "limit files 20000")
    row("20,001 files, with one for a module", files(20000, 0) + [("module-info.class", b"")], "limit files 20000")
    row("files before file-bytes", files(20001, MOST_FILE + 1), "limit files 20000")
    row("a file of the greatest length", [("A.class", Sparse(b"", MOST_FILE))], "refused 1 NotClass A.class")
    row("a class of the greatest length", [padded("A", MOST_FILE)], lines=[])
    row("a byte more", [("A.class", Sparse(b"", MOST_FILE + 1))], "limit file-bytes 16777216")
    row("file-bytes before rule 1, at the first file", [("A.class", Sparse(b"", MOST_FILE + 1)), ("B.class", b"")],
        "limit file-bytes 16777216")
    row("rule 1 at the first file before file-bytes", [("A.class", b""), ("B.class", Sparse(b"", MOST_FILE + 1))],
        "refused 1 NotClass A.class")
    four = [padded(name, MOST_FILE) for name in "ABCD"]
    row("an application of the greatest length", four, lines=[])
    row("an application of the greatest length, and an empty file", four + [("E.class", b"")],
        "refused 1 NotClass E.class")
    row("a byte more of the application", four + [("E.class", b"x")], "limit app-bytes 67108864")
    row("rule 1 before app-bytes", four[:3] + [("D.class", Sparse(b"", MOST_FILE)), ("E.class", b"x")],
        "refused 1 NotClass D.class")
    row("8,000 classes", [named_fields(7994)], "refused 6 MissingClass lib/C00000")
    row("8,001 classes", [named_fields(7995)], "limit classes 8000")
    row("classes before rule 21", [named_fields(7995)], "limit classes 8000", [("java/lang/Object.class", b"")])
    core = sum(len(library()[name].data()) for name in CORE)
    for what, more, answer in (("a library of the greatest length", 0, ""),
                               ("a byte more of the library", 1, "limit library-bytes 268435456")):
        names = ["lib/B%02d" % number for number in range(16)]
        lengths = [MOST_FILE] * 15 + [MOST_FILE - core + more]
        made = Class("app/A")
        for name in names:
            made.field("x" + name[-2:], "L%s;" % name)
        row(what, [made], answer, [padded(name, length) for name, length in zip(names, lengths)])
    row("a byte more of a file of the library", [Class("app/A", "lib/B")], "limit file-bytes 16777216",
        [("lib/B.class", Sparse(b"", MOST_FILE + 1))])
    row("a file of the greatest length in the library", [Class("app/A", "lib/B")], "refused 21 LibraryForm lib/B",
        [("lib/B.class", Sparse(b"", MOST_FILE))])
    row("1,000,000 instructions", long_methods(1000000))
    row("an instruction more", long_methods(1000001), "limit instructions 1000000")
    row("rule 19 before instructions", long_methods(1000001) + [main_of("pop", "return", name="app/Z")],
        at("19 TypeRule", owner="app/Z"))


# ---- running

STATUSES = {"refused": 1, "usage:": 2, "read": 3, "write": 4, "limit": 5, "memory": 6}


def write_files(folder, files):
    for name, data in files.items():
        path = os.path.join(folder, name)
        os.makedirs(os.path.dirname(path), exist_ok=True)
        with open(path, "wb") as file:
            file.write(data.head if isinstance(data, Sparse) else data)
            if isinstance(data, Sparse):
                file.truncate(data.length)


def write_row(folder, app, lib):
    for name, files in (("app", app), ("lib", lib)):
        os.makedirs(os.path.join(folder, name))
        write_files(os.path.join(folder, name), files)


def expected(answer, lines):
    """The status, and what standard output and standard error get."""
    if answer:
        return STATUSES[answer.split(" ")[0]], b"", b"averroes: " + answer.encode() + b"\n"
    return 0, b"".join(line + b"\n" for line in lines), b""


def check_full_output(program):
    """An output that takes nothing is a fault of writing."""
    with tempfile.TemporaryDirectory() as folder, open("/dev/full", "wb") as full:
        write_row(folder, files_of([hello()]), files_of(library().values()))
        ran = subprocess.run([program, "verify", "--app", "app", "--lib", "lib"], cwd=folder, stdin=subprocess.DEVNULL,
                             stdout=full, stderr=subprocess.PIPE)
    got = (ran.returncode, ran.stderr)
    if got != (4, b"averroes: write fault report\n"):
        print("an output that takes nothing:\n  got %s, %s" % got)
        return 1
    return 0


def check(program, word):
    differing, count = check_full_output(program), 1
    for name, app, lib, words, answer, lines in ROWS:
        if word not in name:
            continue
        count += 1
        folder = tempfile.mkdtemp()
        try:
            write_row(folder, app, lib)
            ran = subprocess.run([program, *words], cwd=folder, stdin=subprocess.DEVNULL, capture_output=True)
        finally:
            shutil.rmtree(folder)
        due, got = expected(answer, lines), (ran.returncode, ran.stdout, ran.stderr)
        if got != due:
            differing += 1
            print("%s:\n  due %s\n  got %s" % (name, due, got))
    print("%d rows, %d differ" % (count, differing))
    return 1 if differing else 0


def main(words):
    limits = words[:1] == ["--limits"]
    if limits:
        limit_rows()
        words = words[1:]
    else:
        for part in (accepted_rows, rule_1, rules_2_to_5, rule_21, rule_6, rule_7, rules_8_to_10, rule_11, rule_12,
                     rules_13_to_16, rule_17, rule_18, rule_19, order_rows):
            part()
    assert len({name for name, *_ in ROWS}) == len(ROWS), "two rows have one name"
    if words[0] == "--write":
        for number, (name, app, lib, words_of_row, answer, lines) in enumerate(ROWS):
            folder = os.path.join(words[1], "%03d" % number)
            write_row(folder, app, lib)
            status, out, err = expected(answer, lines)
            write_files(folder, {"name": name.encode(), "words": "\n".join(words_of_row).encode(), "status": b"%d" % status,
                                 "out": out, "err": err})
        return 0
    return check(os.path.abspath(words[0]), words[1] if len(words) > 1 else "")


sys.exit(main(sys.argv[1:]))
