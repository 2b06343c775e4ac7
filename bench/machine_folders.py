"""machine_folders.py FOLDER SHAPE COUNT: makes a folder `in` of class files and a file `script` that the machine runs with them. `SHAPES`
below says which there are; bench/sizes.sh runs them."""
import os
import sys

from size_folders import (
    ABSTRACT, ACONST_NULL, ALOAD_0, ATHROW, ClassFile, DUP, ICONST_0, INTERFACE, INVOKEINTERFACE, INVOKESPECIAL, INVOKESTATIC,
    INVOKEVIRTUAL, LOOKUPSWITCH, NOP, OBJECT as OBJECT_TYPE, POP, PUBLIC, RETURN, caught_frames, full_frame, plain, u2, u4,
)

ASTORE_0, GOTO, MONITORENTER, ANEWARRAY, INSTANCEOF = b"\x4b", b"\xa7", b"\xc2", b"\xbd", b"\xc1"
LDC_W, NEWARRAY_INT, IASTORE, MULTIANEWARRAY = b"\x13", b"\xbc\x0a", b"\x4f", b"\xc5"
OBJECT = "java/lang/Object"


class Class(ClassFile):
    """A class file of the folder `in`, with constants that are loaded and loops."""

    def int(self, number):
        """Code that loads an int."""
        return LDC_W + u2(self.constant(b"\3" + u4(number)))

    def string(self, text):
        """Code that loads a String."""
        return LDC_W + u2(self.constant(b"\x08" + u2(self.text(text))))

    def loop(self, before, turn, stack=3, locals_before=()):
        """A method m that does something, and then a turn again and again: a frame with these locals stands before the turn."""
        code = before + turn
        code += GOTO + u2(len(before) - len(code) & 0xFFFF)
        self.method("m", "()V", code, stack, max(1, len(locals_before)), frames=[full_frame(len(before), locals_before)])

    def write(self, path):
        super().write("in", f"{path}.class")


def script(*lines):
    """Writes the script."""
    with open("script", "w", encoding="utf-8") as file:
        file.writelines(f"{line}\n" for line in lines)


CALL = "call T m ()V"


def objects(count):
    """Objects of a class with so many fields, each two steps."""
    made = Class("C")
    for number in range(count):
        made.field(f"f{number}", "I", PUBLIC)
    made.write("C")
    made = Class("T")
    made.loop(b"", (made.new("C") + POP) * 8_000)
    made.write("T")
    script(CALL)


def arrays(count):
    """Arrays of so many ints, each three steps."""
    made = Class("T")
    one = made.int(count) + NEWARRAY_INT + POP
    made.loop(b"", one * 5_000)
    made.write("T")
    script(CALL)


def multi_arrays(count):
    """Arrays of so many arrays of as many ints, each four steps."""
    made = Class("T")
    one = made.int(count) * 2 + MULTIANEWARRAY + u2(made.type("[[I")) + b"\2" + POP
    made.loop(b"", one * 2_000)
    made.write("T")
    script(CALL)


def frames(count):
    """Calls in one another, each a step, of a method with so many local units."""
    made = Class("T")
    made.method("m", "()V", made.call(INVOKESTATIC, "T", "m") + RETURN, 0, count)
    made.write("T")
    script(CALL)


def lines(count):
    """A script of so many calls."""
    made = Class("T")
    made.method("m", "()V", RETURN)
    made.write("T")
    script(*[CALL] * count)


def known(count):
    """So many objects that the library makes."""
    Class("T").write("T")
    script(*["new java/lang/Object"] * count)


def known_held(count):
    """So many objects that the library makes, after the monitor of one was entered."""
    made = Class("T")
    made.method("m", "(Ljava/lang/Object;)V", ALOAD_0 + MONITORENTER + RETURN, 1, 1)
    made.write("T")
    script("new java/lang/Object", "call T m (Ljava/lang/Object;)V r:0", *["new java/lang/Object"] * count)


def known_calls(count):
    """So many objects that the library makes, and then as many calls."""
    made = Class("T")
    made.method("m", "()V", RETURN)
    made.write("T")
    script(*["new java/lang/Object"] * count, *[CALL] * count)


def stores(count):
    """Stores into an array of so many ints, each four steps."""
    made = Class("T")
    before = made.int(count) + NEWARRAY_INT + ASTORE_0
    turn = (ALOAD_0 + made.int(count - 1) + ICONST_0 + IASTORE) * 4_000
    made.loop(before, turn, 3, [OBJECT_TYPE + u2(made.type("[I"))])
    made.write("T")
    script(CALL)


def sets(count):
    """An array of 1,000,000 ints into which the library stores so many times."""
    Class("T").write("T")
    script("array [I 1000000", *[f"set r:0 {number} i:1" for number in range(count)], "get r:0 1")


def begun(count):
    """So many classes with class initialisers, begun by as many calls of the library."""
    for number in range(count):
        made = Class(plain(number))
        made.method("<clinit>", "()V", RETURN)
        made.method("m", "()V", RETURN)
        made.write(plain(number))
    script(*[f"call {plain(number)} m ()V" for number in range(count)])


def begun_chain(count):
    """A chain of so many classes with class initialisers, of which the lowest is begun first."""
    above = OBJECT
    for number in range(count):
        made = Class(plain(number), above=above)
        made.method("<clinit>", "()V", RETURN)
        made.method("m", "()V", RETURN)
        made.write(plain(number))
        above = plain(number)
    script(f"call {above} m ()V")


def begun_interfaces(count):
    """A class with so many superinterfaces, each of which has a default method."""
    names = [f"I{number:05}" for number in range(count)]
    for name in names:
        made = Class(name, PUBLIC | INTERFACE | ABSTRACT)
        made.method(f"d{name}", "()V", RETURN, 0, 1, flags=PUBLIC)
        made.method("<clinit>", "()V", RETURN)
        made.write(name)
    made = Class("T", interfaces=names)
    made.method("m", "()V", RETURN)
    made.write("T")
    script(CALL)


def strings(count):
    """So many String constants of 8 bytes, 30,000 in each class, each two steps."""
    for part in range(0, count, 30_000):
        made = Class(plain(part))
        here = range(part, min(count, part + 30_000))
        for first in here[::15_000]:
            code = b"".join(made.string(f"s{number:07}") + POP for number in range(first, min(first + 15_000, here[-1] + 1)))
            made.method(f"m{first}", "()V", code + RETURN)
        made.write(plain(part))
    script(*[f"call {plain(first // 30_000 * 30_000)} m{first} ()V" for first in range(0, count, 15_000)])


def long_strings(count):
    """Two String constants of so many bytes that are loaded again and again, each two steps."""
    made = Class("T")
    turn = made.string("x" * count) + POP + made.string("x" * (count - 1) + "y") + POP
    made.loop(b"", turn * 4_000)
    made.write("T")
    script(CALL)


def selections(count):
    """Virtual calls, each three steps, on the lowest of a chain of so many classes of a method of the highest."""
    above = OBJECT
    for number in range(count):
        made = Class(plain(number), above=above)
        if number == 0:
            made.method("f", "()V", RETURN, 0, 1, flags=PUBLIC)
            made.method("<init>", "()V", ALOAD_0 + made.call(INVOKESPECIAL, OBJECT, "<init>") + RETURN, 1, 1, flags=PUBLIC)
        else:
            made.method("<init>", "()V", ALOAD_0 + made.call(INVOKESPECIAL, above, "<init>") + RETURN, 1, 1, flags=PUBLIC)
        made.write(plain(number))
        above = plain(number)
    made = Class("T")
    before = made.new(above) + DUP + made.call(INVOKESPECIAL, above, "<init>") + ASTORE_0
    made.loop(before, (ALOAD_0 + made.call(INVOKEVIRTUAL, above, "f")) * 5_000, 2, [OBJECT_TYPE + u2(made.type(above))])
    made.write("T")
    script(CALL)


def defaults(count):
    """Calls, each three steps, of a default method of the highest of a chain of so many interfaces, on an object of a class with the
    lowest."""
    above = ()
    for number in range(count):
        name = f"I{number:05}"
        made = Class(name, PUBLIC | INTERFACE | ABSTRACT, OBJECT, above)
        if number == 0:
            made.method("f", "()V", RETURN, 0, 1, flags=PUBLIC)
        made.write(name)
        above = (name,)
    made = Class("C", interfaces=above)
    made.method("<init>", "()V", ALOAD_0 + made.call(INVOKESPECIAL, OBJECT, "<init>") + RETURN, 1, 1, flags=PUBLIC)
    made.write("C")
    made = Class("T")
    before = made.new("C") + DUP + made.call(INVOKESPECIAL, "C", "<init>") + ASTORE_0
    call = ALOAD_0 + INVOKEINTERFACE + u2(made.interface_method(above[0], "f", "()V")) + b"\1\0"
    made.loop(before, call * 4_000, 2, [OBJECT_TYPE + u2(made.type("C"))])
    made.write("T")
    script(CALL)


def throws(count):
    """Throws inside so many handlers of which the last catches, each four steps."""
    made = Class("T")
    thrown = made.type("java/lang/NullPointerException")
    other = made.type("java/lang/ArithmeticException")
    code = ACONST_NULL + ATHROW + POP + GOTO + u2(-3 & 0xFFFF)
    table = [(0, 2, 2, other)] * (count - 1) + [(0, 2, 2, thrown)]
    caught = OBJECT_TYPE + u2(made.type("java/lang/Throwable"))
    made.method("m", "()V", code, 1, 0, table, [full_frame(0, []), full_frame(1, [], caught, 1)])
    made.write("T")
    script(CALL)


def run_ranges(count):
    """A method of 65,000 instructions and so many handlers, whose ranges end with it; no two begin at one place but by turns."""
    made = Class("T")
    body = NOP * 65_000
    end = len(body)
    table = [(number % end, end, end + 1, 0) for number in range(count)]
    made.method("m", "()V", body + RETURN + ATHROW, 1, 0, table, caught_frames(made, end + 1, 1))
    made.write("T")
    script(CALL)


def switches(count):
    """A lookupswitch of so many keys whose last is taken, each two steps."""
    made = Class("T")
    before = made.int(count - 1)
    pad = b"\0" * (3 - len(before) % 4)
    end = len(pad) + 9 + 8 * count
    code = before + LOOKUPSWITCH + pad + u4(0x100000000 - len(before)) + u4(count)
    code += b"".join(u4(key) + u4(0x100000000 - len(before)) for key in range(count))
    made.method("m", "()V", code, 1, 0, frames=[full_frame(0, [])])
    made.write("T")
    script(CALL)


def casts(count):
    """Tests, each three steps, of an array of the lowest of a chain of so many classes for arrays of the highest."""
    above = OBJECT
    for number in range(count):
        Class(plain(number), above=above).write(plain(number))
        above = plain(number)
    made = Class("T")
    test = ALOAD_0 + INSTANCEOF + u2(made.type(f"[L{plain(0)};")) + POP
    before = ICONST_0 + ANEWARRAY + u2(made.type(above)) + ASTORE_0
    made.loop(before, test * 6_000, 2, [OBJECT_TYPE + u2(made.type(f"[L{above};"))])
    made.write("T")
    script(CALL)


SHAPES = {
    made.__name__.replace("_", "-"): made
    for made in (
        objects, arrays, multi_arrays, frames, lines, known, known_held, known_calls, stores, sets, begun, begun_chain, begun_interfaces,
        strings, long_strings, selections, defaults, throws, run_ranges, switches, casts,
    )
}

if __name__ == "__main__":
    os.chdir(sys.argv[1])
    os.makedirs("in", exist_ok=True)
    SHAPES[sys.argv[2]](int(sys.argv[3]))
