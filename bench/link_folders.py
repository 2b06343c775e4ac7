"""link_folders.py FOLDER COUNT: makes a folder `in` of so many classes that use one another and those of a library `lib`, which has seven
times as many. Each class is below that of a quarter of its number, and has twelve methods, whose code verifies nowhere.
link_folders.py FOLDER link | type: makes the class A in it, which comes first: a method of it calls one that is not there, or pops from an
empty stack."""
import os
import sys

from size_folders import ClassFile, FIELD, INVOKESTATIC, INVOKEVIRTUAL, POP, PUBLIC, RETURN, STATIC, u2

PACKAGES, METHODS = 16, 12
GETSTATIC, GETFIELD, CHECKCAST = b"\xb2", b"\xb4", b"\xc0"


def named(package, number):
    """The name of a class of the folder or the library."""
    return f"{package}{number % PACKAGES:02}/C{number:05}"


def library_class(number):
    made = ClassFile(named("lib", number))
    made.field("f", "I")
    made.method("m", "()V", RETURN, 0, 1, flags=PUBLIC)
    made.method("s", "()V", RETURN, 0, 0, flags=PUBLIC | STATIC)
    return made


def folder_class(number):
    made = ClassFile(named("app", number), above=named("app", number // 4) if number else "java/lang/Object")
    made.field("x", "I", PUBLIC)
    other = named("app", number // 2)
    for method in range(METHODS):
        used = named("lib", (7 * number + method) // 2)
        code = GETFIELD + u2(made.member(FIELD, other, "x", "I"))
        code += made.call(INVOKEVIRTUAL, other, f"m{method}", f"(L{named('app', 0)};)V")
        code += GETSTATIC + u2(made.member(FIELD, used, "f", "I")) + made.call(INVOKESTATIC, used, "s")
        code += CHECKCAST + u2(made.type(used)) + made.new(other) + RETURN
        made.method(f"m{method}", f"(L{other};)V", code, 9, 9, flags=PUBLIC)
    return made


def write_all(folder, made, count):
    for number in range(count):
        one = made(number)
        os.makedirs(os.path.join(folder, os.path.dirname(one.name)), exist_ok=True)
        one.write(folder, f"{one.name}.class")


folder = sys.argv[1]
if sys.argv[2] in ("link", "type"):
    first = ClassFile("A")
    first.method("m", "()V", first.call(INVOKESTATIC, "A", "nowhere") + RETURN if sys.argv[2] == "link" else POP + RETURN)
    first.write(os.path.join(folder, "in"), "A.class")
else:
    write_all(os.path.join(folder, "in"), folder_class, int(sys.argv[2]))
    write_all(os.path.join(folder, "lib"), library_class, 7 * int(sys.argv[2]))
