"""expansion_folders.py FOLDER SHAPE COUNT..: makes a folder `in` of class files, and in some shapes more of a folder `lib`, for whose
methods flat code is asked for. `SHAPES` below says which there are; bench/sizes.sh and bench/rewriting.sh ask for them."""
import os
import sys

from size_folders import (
    ABSTRACT, ACONST_NULL, ALOAD_0, ATHROW, ClassFile, DUP, FIELD, ICONST_0, INT, INTERFACE, INVOKESPECIAL, INVOKESTATIC, INVOKEVIRTUAL,
    METHOD, NOP, POP, PUBLIC, RETURN, caught_frames, full_frame, plain, u2,
)

PUTFIELD, ILOAD_0 = b"\xb5", b"\x1a"
FINAL = 0x10
OBJECT = "java/lang/Object"


class Class(ClassFile):
    """A class file of the folder `in`, with sites and constructors."""

    def site(self, owner):
        """Code that makes an object on which no constructor is called."""
        return self.new(owner) + POP

    def constructed(self, owner):
        """Code that makes an object and calls its constructor without arguments."""
        return self.new(owner) + DUP + self.call(INVOKESPECIAL, owner, "<init>") + POP

    def constructor(self, above, desc="()V", local_units=1):
        """A constructor that does nothing but call the superclass's."""
        self.method("<init>", desc, ALOAD_0 + self.call(INVOKESPECIAL, above, "<init>") + RETURN, 1, local_units, flags=PUBLIC)

    def write(self, path):
        super().write("in", path)


def candidate(name="C", above=OBJECT):
    """A class without members, whose objects may be kept in local variables."""
    Class(name, above=above).write(f"{name}.class")


def tree(count, leaf, hosts=1):
    """So many hosts, in as many classes as are asked for, of a tree of calls that is six callees deep: each callee but those at the
    bottom calls three."""
    candidate()
    made = Class("T")
    for level in range(5):
        made.method(f"f{level}", "()V", made.call(INVOKESTATIC, "T", f"f{level + 1}") * 3 + RETURN)
    made.method("f5", "()V", NOP * leaf + RETURN)
    made.write("T.class")
    for number in range(hosts):
        host = Class(f"H{number:05}")
        for method in range(count // hosts):
            host.method(f"m{method}", "()V", host.site("C") + host.call(INVOKESTATIC, "T", "f0") + RETURN)
        host.write(f"H{number:05}.class")


def tree_under(count):
    """So many hosts whose flat code has 7,657 points, of the 8,000 that it may have."""
    tree(count, 30)


def tree_over(count):
    """So many hosts whose flat code would have more points than it may have."""
    tree(count, 32)


def hosts(count):
    """So many classes, each with a host of the same callees, whose flat code has 367 points."""
    tree(count, 0, count)


def callers(count):
    """So many methods of one class that call one callee."""
    candidate()
    made = Class("T")
    made.method("f", "()V", RETURN)
    call = made.site("C") + made.call(INVOKESTATIC, "T", "f") + RETURN
    for number in range(count):
        made.method(f"m{number}", "()V", call)
    made.write("T.class")


def alike(count):
    """So many classes with a virtual method of one name and descriptor, and a call of each."""
    for number in range(count):
        name = plain(number)
        made = Class(name)
        made.method("get", "()V", RETURN, 0, 1, flags=PUBLIC)
        made.method("m", "()V", made.site(name) + ACONST_NULL + made.call(INVOKEVIRTUAL, name, "get") + RETURN)
        made.write(f"{name}.class")


def alike_callers(count):
    """So many classes with a virtual method of one name and descriptor, and as many calls of one of them."""
    alike(count)
    name = plain(0)
    made = Class("T")
    call = made.site(name) + ACONST_NULL + made.call(INVOKEVIRTUAL, name, "get") + RETURN
    for number in range(count):
        made.method(f"m{number}", "()V", call)
    made.write("T.class")


def constructors(count, host):
    """A chain of so many classes, each with a constructor that calls the one above, and a method that makes an object of the class
    that host gives it."""
    above = OBJECT
    for number in range(count):
        name = plain(number)
        made = Class(name, above=above)
        made.constructor(above)
        made.method("m", "()V", made.constructed(plain(host(number))) + RETURN, 2)
        made.write(f"{name}.class")
        above = name


def constructors_own(count):
    """A chain of so many classes with constructors, each with a method that makes an object of its own class."""
    constructors(count, lambda number: number)


def constructors_last(count):
    """The same, where each makes an object of the lowest class."""
    constructors(count, lambda number: count - 1)


def constructors_one(count):
    """A chain of so many classes with constructors, and a class with as many methods, each of which makes an object of one of them."""
    constructors(count, lambda number: 0)
    made = Class("T")
    for number in range(count):
        made.method(f"m{number}", "()V", made.constructed(plain(number)) + RETURN, 2)
    made.write("T.class")


def candidates(count):
    """A chain of so many candidates with 60 fields at its top, each with a method that makes an object of the lowest."""
    above = OBJECT
    for number in range(count):
        name = plain(number)
        made = Class(name, above=above)
        for field in range(60 if number == 0 else 0):
            made.field(f"f{field}", "I", PUBLIC)
        made.method("m", "()V", made.site(plain(count - 1)) + RETURN)
        made.write(f"{name}.class")
        above = name


def ask_others(count):
    """So many candidates, each with a method that makes objects of up to 200 others."""
    for number in range(count):
        made = Class(plain(number))
        code = b"".join(made.site(plain((number + step) % count)) for step in range(1, min(count, 201)))
        made.method("m", "()V", code + RETURN)
        made.write(f"{plain(number)}.class")


def long_fields(count):
    """A candidate with 60 fields whose descriptors have 60,000 bytes in all, and so many classes below it, each with a method that
    makes an object of it."""
    top = Class("A")
    for field in range(60):
        name = f"{field:02}" + "x" * 990
        Class(name).write(f"X{field}.class")
        top.field(f"f{field}", f"L{name};", PUBLIC)
    top.write("A.class")
    for number in range(count):
        name = plain(number)
        made = Class(name, above="A")
        made.method("m", "()V", made.site(name) + RETURN)
        made.write(f"{name}.class")


def quiet(count):
    """A chain of so many classes, the lowest of which has as many static methods, and a call of each of them."""
    above = OBJECT
    for number in range(count):
        candidate(plain(number), above)
        above = plain(number)
    made = Class("T", above=above)
    for number in range(count):
        made.method(f"f{number}", "()V", RETURN)
        made.method(f"m{number}", "()V", made.site(plain(0)) + made.call(INVOKESTATIC, "T", f"f{number}") + RETURN)
    made.write("T.class")


def silent(count):
    """A chain of so many interfaces, and as many classes that have the lowest, each with a method that makes an object of it."""
    above = ()
    for number in range(count):
        name = f"I{number:05}"
        Class(name, PUBLIC | INTERFACE | ABSTRACT, OBJECT, above).write(f"{name}.class")
        above = (name,)
    for number in range(count):
        name = plain(number)
        made = Class(name, interfaces=above)
        made.method("m", "()V", made.site(name) + RETURN)
        made.write(f"{name}.class")


def library_chain(count):
    """A chain of so many classes of the library, and as many of the folder below the lowest, each with a method that makes an object
    of it."""
    above = OBJECT
    for number in range(count):
        name = f"L{number:05}"
        ClassFile(name, above=above).write("lib", f"{name}.class")
        above = name
    for number in range(count):
        name = plain(number)
        made = Class(name, above=above)
        made.method("m", "()V", made.site(name) + RETURN)
        made.write(f"{name}.class")


def handles(count):
    """A candidate with so many constructors, each of which a method handle names, and a method that makes 200 objects of it."""
    made = Class("C")
    kinds = "BCDFIJSZ"
    for number in range(count):
        desc = "(" + "".join(kinds[number >> 3 * place & 7] for place in range(5)) + ")V"
        made.constructor(OBJECT, desc, 11)
        made.constant(b"\x0f\x08" + u2(made.member(METHOD, "C", "<init>", desc)))
    made.method("m", "()V", made.site("C") * 200 + RETURN)
    made.write("C.class")


def final_stores(count):
    """So many classes, each with 20 final fields into which its constructor stores."""
    for number in range(count):
        name = plain(number)
        made = Class(name)
        code = ALOAD_0 + made.call(INVOKESPECIAL, OBJECT, "<init>")
        for field in range(20):
            made.field(f"f{field}", "I", PUBLIC | FINAL)
            code += ALOAD_0 + ICONST_0 + PUTFIELD + u2(made.member(FIELD, name, f"f{field}", "I"))
        made.method("<init>", "()V", code + RETURN, 2, 1, flags=PUBLIC)
        made.method("m", "()V", made.site(name) + RETURN)
        made.write(f"{name}.class")


def colliding(count):
    """So many virtual methods whose names stand in one slot, and a call of each of them."""
    bits = max(1, (count - 1).bit_length())
    made = Class("T")
    candidate()
    for number in range(count):
        name = "".join("AaBB"[2 * (number >> place & 1):][:2] for place in range(bits))
        made.method(name, "()V", RETURN, 0, 1, flags=PUBLIC)
        made.method(f"m{number}", "()V", made.site("C") + ACONST_NULL + made.call(INVOKEVIRTUAL, "T", name) + RETURN)
    made.write("T.class")


def within_handlers(starts):
    """A method of 7,900 instructions, and a handler from each of these places to its end."""
    candidate()
    made = Class("T")
    body = made.site("C") + NOP * 7_900
    end = len(body)
    table = [(start, end, end + 1, 0) for start in starts]
    made.method("m", "()V", body + RETURN + ATHROW, 1, 0, table, caught_frames(made, end + 1, 1))
    made.write("T.class")


def ranges(count):
    """A method of 7,900 instructions and so many handlers, whose ranges end with it; no two begin at one place but by turns."""
    within_handlers([4 + number % 7_900 for number in range(count)])


def same_ranges(count):
    """A method of 7,900 instructions inside so many handlers."""
    within_handlers([0] * count)


def units(count):
    """A method of 7,900 instructions behind a frame of so many locals."""
    candidate()
    made = Class("T")
    made.method("m", "()V", RETURN + made.site("C") + NOP * 7_900 + RETURN, 1, count, frames=[full_frame(1, [INT] * count)])
    made.write("T.class")


def units_calls(count):
    """A method of 900 calls of a callee with four points behind a frame of so many locals."""
    candidate()
    made = Class("T")
    made.method("f", "()V", NOP * 3 + RETURN)
    call = made.call(INVOKESTATIC, "T", "f")
    made.method("m", "()V", RETURN + made.site("C") + call * 900 + RETURN, 1, count, frames=[full_frame(1, [INT] * count)])
    made.write("T.class")


def flat_pushes(count):
    """So many methods that push 3,900 values and pop them."""
    candidate()
    made = Class("T")
    for number in range(count):
        made.method(f"m{number}", "()V", made.site("C") + ICONST_0 * 3_900 + POP * 3_900 + RETURN, 3_900)
    made.write("T.class")


def long_calls(count):
    """So many methods of 3,000 calls of one whose descriptor has 60,000 bytes."""
    candidate()
    name = "x" * 60_000
    Class(name).write("X.class")
    desc = f"(L{name};)V"
    made = Class("T")
    made.method("f", desc, NOP * 61 + RETURN, local_units=1)
    made.method("g", desc, RETURN, local_units=1)
    for number in range(count):
        call = ACONST_NULL + made.call(INVOKESTATIC, "T", "fg"[number % 2], desc)
        made.method(f"m{number}", "()V", made.site("C") + call * (120 if number % 2 == 0 else 1_900) + RETURN)
    made.write("T.class")


def long_constructors(count):
    """So many methods that call 1,500 constructors whose descriptor has 60,000 bytes."""
    name = "x" * 60_000
    Class(name).write("X.class")
    desc = f"(L{name};)V"
    candidate()
    made = Class("T")
    made.constructor(OBJECT, desc, 2)
    for number in range(count):
        one = made.new("T") + ACONST_NULL + made.call(INVOKESPECIAL, "T", "<init>", desc)
        made.method(f"m{number}", "()V", made.site("C") + one * 1_500 + RETURN, 2)
    made.write("T.class")


def handled(count, size):
    """So many methods of so many instructions, most of which load and pop, with a handler over half of each 64 bytes."""
    candidate()
    made = Class("T")
    for number in range(count):
        body = made.site("C") + (ILOAD_0 + POP) * ((size - 5) // 2) + RETURN
        table = [(start, start + 32, len(body), 0) for start in range(0, len(body) - 64, 64)]
        made.method(f"m{number}", "(I)V", body + POP + RETURN, 1, 1, table, caught_frames(made, len(body), 1))
    made.write("T.class")


SHAPES = {
    made.__name__.replace("_", "-"): made
    for made in (
        tree_under, tree_over, hosts, callers, alike, alike_callers, constructors_own, constructors_last, constructors_one,
        candidates, ask_others, long_fields, quiet, silent, library_chain, handles, final_stores, colliding, ranges, same_ranges,
        units, units_calls, flat_pushes, long_calls, long_constructors, handled,
    )
}

if __name__ == "__main__":
    os.chdir(sys.argv[1])
    os.makedirs("in", exist_ok=True)
    os.makedirs("lib", exist_ok=True)
    SHAPES[sys.argv[2]](*map(int, sys.argv[3:]))
