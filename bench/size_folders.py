"""size_folders.py FOLDER SHAPE COUNT: makes a folder of class files of one shape, each as large as a class file can be or so many
times over. `SHAPES` below says which there are; bench/sizes.sh verifies them."""
import os
import struct
import sys

NOP, ACONST_NULL, ICONST_0, FCONST_0 = b"\0", b"\1", b"\3", b"\x0b"
ALOAD_0, ISTORE_0, FSTORE_0, RETURN, ATHROW = b"\x2a", b"\x3b", b"\x43", b"\xb1", b"\xbf"
INVOKEVIRTUAL, INVOKESPECIAL, INVOKESTATIC, INVOKEINTERFACE, NEW = b"\xb6", b"\xb7", b"\xb8", b"\xb9", b"\xbb"
POP, DUP, TABLESWITCH, LOOKUPSWITCH = b"\x57", b"\x59", b"\xaa", b"\xab"
FIELD, METHOD, INTERFACE_METHOD = b"\x09", b"\x0a", b"\x0b"
PUBLIC, STATIC, SUPER, INTERFACE, ABSTRACT = 1, 8, 0x20, 0x200, 0x400
MOST = 65_535
INT, FLOAT, OBJECT = b"\1", b"\2", b"\7"


def u2(number):
    return struct.pack(">H", number)


def u4(number):
    return struct.pack(">I", number)


def plain(number):
    """The name of the class of a number, with five digits: classes are then in the order of their numbers."""
    return f"C{number:05}"


class ClassFile:
    """A class file that is put together: constants are found or added."""

    def __init__(self, name="M", flags=PUBLIC | SUPER, above="java/lang/Object", interfaces=()):
        self.name, self.entries, self.indices = name, [], {}
        self.flags, self.fields, self.methods = flags, [], []
        self.this, self.above = self.type(name), self.type(above)
        self.interfaces = [self.type(one) for one in interfaces]

    def constant(self, content, again=False):
        if again or content not in self.indices:
            self.entries.append(content)
            self.indices[content] = len(self.entries)
        return self.indices[content]

    def text(self, text):
        text = text.encode()
        return self.constant(b"\1" + u2(len(text)) + text)

    def type(self, name):
        return self.constant(b"\7" + u2(self.text(name)))

    def method_of(self, name, desc, again=False):
        """A reference to a method of the class itself."""
        member = self.constant(b"\x0c" + u2(self.text(name)) + u2(self.text(desc)))
        return self.constant(METHOD + u2(self.this) + u2(member), again)

    def member(self, tag, owner, name, desc):
        """A reference, with this tag, to a member of a class or interface."""
        member = self.constant(b"\x0c" + u2(self.text(name)) + u2(self.text(desc)))
        return self.constant(tag + u2(self.type(owner)) + u2(member))

    def interface_method(self, owner, name, desc):
        """A reference to a method of an interface."""
        return self.member(INTERFACE_METHOD, owner, name, desc)

    def call(self, opcode, owner, name, desc="()V"):
        """A call of a class's method."""
        return opcode + u2(self.member(METHOD, owner, name, desc))

    def new(self, owner):
        """A `new` of a class."""
        return NEW + u2(self.type(owner))

    def field(self, name, desc, flags=PUBLIC | STATIC):
        self.fields.append(u2(flags) + u2(self.text(name)) + u2(self.text(desc)) + u2(0))

    def abstract(self, name, desc):
        self.methods.append(u2(PUBLIC | ABSTRACT) + u2(self.text(name)) + u2(self.text(desc)) + u2(0))

    def method(self, name, desc, code, stack=1, local_units=0, handlers=(), frames=(), flags=PUBLIC | STATIC):
        """A method, static by its flags if they are not given; handlers are (start, end, at, catch type), frames the entries of a
        StackMapTable, joined."""
        inner = u2(0)
        if frames:
            table = u2(len(frames)) + b"".join(frames)
            inner = u2(1) + u2(self.text("StackMapTable")) + u4(len(table)) + table
        rows = b"".join(struct.pack(">HHHH", *handler) for handler in handlers)
        content = u2(stack) + u2(local_units) + u4(len(code)) + code + u2(len(handlers)) + rows + inner
        head = u2(flags) + u2(self.text(name)) + u2(self.text(desc)) + u2(1)
        self.methods.append(head + u2(self.text("Code")) + u4(len(content)) + content)

    def write(self, folder, path):
        whole = b"\xca\xfe\xba\xbe" + u2(0) + u2(52) + u2(len(self.entries) + 1) + b"".join(self.entries)
        whole += u2(self.flags) + u2(self.this) + u2(self.above)
        whole += u2(len(self.interfaces)) + b"".join(u2(one) for one in self.interfaces)
        whole += u2(len(self.fields)) + b"".join(self.fields)
        whole += u2(len(self.methods)) + b"".join(self.methods) + u2(0)
        with open(os.path.join(folder, path), "wb") as file:
            file.write(whole)


def full_frame(delta, local_types, stack=b"", entries=0):
    return b"\xff" + u2(delta) + u2(len(local_types)) + b"".join(local_types) + u2(entries) + stack


def caught_frames(made, first, count):
    """Frames at so many places in a row from the first on: no locals, and a throwable on the stack."""
    thrown = OBJECT + u2(made.type("java/lang/Throwable"))
    return [b"\xf7" + u2(first) + thrown] + [b"\x40" + thrown] * (count - 1)


def nops(count, folder):
    """So many methods of 65,535 bytes."""
    made = ClassFile()
    for number in range(count):
        made.method(f"m{number}", "()V", NOP * (MOST - 1) + RETURN)
    made.write(folder, "M.class")


def handlers(count, folder):
    """A method of 65,535 bytes inside so many equal handlers."""
    made, range_end = ClassFile(), MOST - 1
    made.method(
        "m", "()V", NOP * (range_end - 1) + RETURN + ATHROW,
        handlers=[(0, range_end, range_end, 0)] * count, frames=caught_frames(made, range_end, 1),
    )
    made.write(folder, "M.class")


def targets(count, folder, body=NOP * (MOST // 2), local_units=0):
    """A method of a body inside so many handlers with as many targets, as far as there is room, and then with two catch types."""
    made = ClassFile()
    begin = len(body) + 1
    places = min(count, MOST - begin)
    types = [0, made.type("java/lang/Throwable"), made.type("java/lang/ArithmeticException")]
    table = [(0, begin, begin + number % places, types[number // places]) for number in range(count)]
    made.method("m", "()V", body + RETURN + ATHROW * places, 1, local_units, table, caught_frames(made, begin, places))
    made.write(folder, "M.class")


def changes(count, folder):
    """30,000 stores that change the type of a local, inside 65,535 handlers with so many targets."""
    made, body = ClassFile(), (ICONST_0 + ISTORE_0 + FCONST_0 + FSTORE_0) * 15_000
    begin = len(body) + 1
    table = [(0, begin, begin + number % count, 0) for number in range(MOST)]
    made.method("m", "()V", body + RETURN + ATHROW * count, 1, 1, table, caught_frames(made, begin, count))
    made.write(folder, "M.class")


def long_type(folder, length):
    """The descriptor, of so many bytes, of a method that takes an object of a class that is there."""
    name = "x" * (length - 5)
    ClassFile(name).write(folder, "X.class")
    return f"(L{name};)V"


def calls(count, folder):
    """So many calls of a method whose descriptor has 20,000 bytes, by one constant, 16,000 in each method."""
    made, desc = ClassFile(), long_type(folder, 20_000)
    made.method("f", desc, RETURN, local_units=1)
    call = ACONST_NULL + INVOKESTATIC + u2(made.method_of("f", desc))
    for number in range(count // 16_000):
        made.method(f"m{number}", "()V", call * 16_000 + RETURN)
    made.write(folder, "M.class")


def references(count, folder):
    """Calls by so many constants of a method whose descriptor has 64,000 bytes, 16,000 in each method."""
    made, desc = ClassFile(), long_type(folder, 64_000)
    made.method("f", desc, RETURN, local_units=1)
    for number in range(count // 16_000 + 1):
        made.text(f"m{number}")
    made.text("()V")
    found = [made.method_of("f", desc, again=True) for _ in range(count)]
    for number in range(0, count, 16_000):
        code = b"".join(ACONST_NULL + INVOKESTATIC + u2(index) for index in found[number:number + 16_000])
        made.method(f"m{number // 16_000}", "()V", code + RETURN)
    made.write(folder, "M.class")


def interface_calls(count, folder):
    """So many calls of two methods of an interface by turns, whose descriptors have 20,000 bytes, 8,000 in each method."""
    face, made, desc = ClassFile("I", PUBLIC | INTERFACE | ABSTRACT), ClassFile(), long_type(folder, 20_000)
    descs = [desc, desc[:-1] + "I"]
    for number, each in enumerate(descs):
        face.abstract(f"f{number}", each)
    face.write(folder, "I.class")
    first, second = [made.interface_method("I", f"f{number}", each) for number, each in enumerate(descs)]
    call = b"".join(
        ACONST_NULL + ACONST_NULL + INVOKEINTERFACE + u2(method) + b"\2\0" + end
        for method, end in ((first, b""), (second, POP))
    )
    for number in range(count // 8_000):
        made.method(f"m{number}", "()V", call * 4_000 + RETURN, 2)
    made.write(folder, "M.class")


def same_descriptors(count, folder):
    """So many abstract methods of one descriptor, which has 64,000 bytes."""
    made, desc = ClassFile(flags=PUBLIC | SUPER | ABSTRACT), long_type(folder, 64_000)
    for number in range(count):
        made.abstract(f"m{number}", desc)
    made.write(folder, "M.class")


def same_descriptors_code(count, folder):
    """So many methods of one descriptor, which has 64,000 bytes, each with a code of one byte."""
    made, desc = ClassFile(), long_type(folder, 64_000)
    for number in range(count):
        made.method(f"m{number}", desc, RETURN, local_units=1)
    made.write(folder, "M.class")


def same_types(count, folder):
    """So many fields of one descriptor, which has 64,000 bytes."""
    made, desc = ClassFile(), long_type(folder, 64_000)[1:-2]
    for number in range(count):
        made.field(f"f{number}", desc)
    made.write(folder, "M.class")


def full(count, folder):
    """So many frames of 65,535 locals, of which no two are equal."""
    made, frames = ClassFile(), []
    for number in range(count):
        kinds = [FLOAT if number >> place & 1 else INT for place in range(8)]
        frames.append(full_frame(0 if frames else 1, (kinds * (MOST // 8 + 1))[:MOST]))
    made.method("m", "()V", RETURN * (count + 1), 0, MOST, frames=frames)
    made.write(folder, "M.class")


def wide(count, folder):
    """65,535 instructions, each behind a frame of so many locals."""
    made = ClassFile()
    made.method("m", "()V", RETURN + NOP * (MOST - 2) + RETURN, 0, count, frames=[full_frame(1, [INT] * count)])
    made.write(folder, "M.class")


def wide_handlers(count, folder):
    """Two methods of 65,535 bytes inside a handler, behind a frame of so many locals: one of nops, and one that pushes and pops."""
    made = ClassFile()
    locals_before = full_frame(1, [INT] * count)
    for name, body in (("m", NOP * (MOST - 3)), ("p", (ICONST_0 + POP) * (MOST // 2 - 1))):
        end = len(body) + 2
        frames = [locals_before] + caught_frames(made, end - 2, 1)
        made.method(name, "()V", RETURN + body + RETURN + ATHROW, 1, count, [(1, end, end, 0)], frames)
    made.write(folder, "M.class")


def wide_stores(count, folder):
    """A method of 65,535 bytes that stores again and again inside a handler, behind a frame of so many locals."""
    made, body = ClassFile(), (ICONST_0 + ISTORE_0) * (MOST // 2 - 1)
    end = len(body) + 2
    frames = [full_frame(1, [INT] * count)] + caught_frames(made, end - 2, 1)
    made.method("m", "()V", RETURN + body + RETURN + ATHROW, 1, count, [(1, end, end, 0)], frames)
    made.write(folder, "M.class")


def pushes(count, folder):
    """A method that pushes so many values and pops them."""
    made = ClassFile()
    made.method("m", "()V", ICONST_0 * count + POP * count + RETURN, count)
    made.write(folder, "M.class")


def constructor_calls(count, folder):
    """So many calls of a constructor whose descriptor has 20,000 bytes, by one constant, 8,000 in each method."""
    made, desc = ClassFile(), long_type(folder, 20_000)
    code = ALOAD_0 + made.call(INVOKESPECIAL, "java/lang/Object", "<init>") + RETURN
    made.method("<init>", desc, code, 1, 2, flags=PUBLIC)
    call = NEW + u2(made.this) + ACONST_NULL + INVOKESPECIAL + u2(made.method_of("<init>", desc))
    for number in range(count // 8_000):
        made.method(f"m{number}", "()V", call * 8_000 + RETURN, 2)
    made.write(folder, "M.class")


def chain_calls(count, folder):
    """A chain of so many classes, and four times as many calls, on an object of the lowest, of a method of the highest."""
    above = "java/lang/Object"
    for number in range(count):
        name = plain(number)
        made = ClassFile(name, above=above)
        if number == 0:
            made.method("f", "()V", RETURN, 0, 1, flags=PUBLIC)
        made.write(folder, f"{name}.class")
        above = name
    made = ClassFile()
    call = ALOAD_0 + made.call(INVOKEVIRTUAL, above, "f")
    for number in range(count // 4_000):
        made.method(f"m{number}", f"(L{above};)V", call * 16_000 + RETURN, 1, 1)
    made.write(folder, "M.class")


def field_types(count):
    """So many field descriptors, no two of which are equal."""
    return ["[" * (number // 8) + "BCDFIJSZ"[number % 8] for number in range(count)]


def fields(count, folder):
    """A class with so many fields of 256 types."""
    made, types = ClassFile(), field_types(256)
    for number in range(count):
        made.field(f"f{number // 256}", types[number % 256])
    made.write(folder, "M.class")


def methods(count, folder):
    """A class with so many abstract methods of 256 descriptors."""
    made, types = ClassFile(flags=PUBLIC | SUPER | ABSTRACT), field_types(256)
    for number in range(count):
        made.abstract(f"f{number // 256}", f"({types[number % 256]})V")
    made.write(folder, "M.class")


def constants(count, folder):
    """So many constants, and a method that loads some of them."""
    made = ClassFile()
    for name in ("m", "()V", "Code"):
        made.text(name)
    numbers = [made.constant(b"\3" + u4(number)) for number in range(count - len(made.entries))]
    made.method("m", "()V", b"".join(b"\x13" + u2(index) + POP for index in numbers[:16_000]) + RETURN)
    made.write(folder, "M.class")


def texts(count, folder):
    """A pool of so many texts of 65,535 bytes."""
    made = ClassFile()
    for number in range(count):
        made.text(f"{number:05}" + "t" * (MOST - 5))
    made.write(folder, "M.class")


def tiny(count, folder):
    """So many classes without members."""
    for number in range(count):
        ClassFile(f"C{number}").write(folder, f"C{number}.class")


def tables(count, folder):
    """So many methods of the longest tableswitch."""
    made, places = ClassFile(), (MOST - 18) // 4
    end = 1 + 3 + 12 + 4 * places
    rows = TABLESWITCH + b"\0\0" + u4(end - 1) + u4(0) + u4(places - 1) + u4(end - 1) * places
    for number in range(count):
        made.method(f"m{number}", "()V", ICONST_0 + rows + RETURN, frames=[b"\xfb" + u2(end)])
    made.write(folder, "M.class")


def lookups(count, folder):
    """So many methods of the longest lookupswitch."""
    made, pairs = ClassFile(), (MOST - 14) // 8
    end = 1 + 3 + 8 + 8 * pairs
    rows = LOOKUPSWITCH + b"\0\0" + u4(end - 1) + u4(pairs) + b"".join(u4(key) + u4(end - 1) for key in range(pairs))
    for number in range(count):
        made.method(f"m{number}", "()V", ICONST_0 + rows + RETURN, frames=[b"\xfb" + u2(end)])
    made.write(folder, "M.class")


def names(count, folder):
    """So many classes with names of 65,535 bytes, each with a method and a field with such names."""
    for number in range(count):
        name = f"{number:05}" + "n" * (MOST - 5)
        made = ClassFile(name)
        made.field(name, "I")
        made.method(name, "()V", RETURN)
        made.write(folder, f"N{number}.class")


def deep(count, folder):
    """So many folders inside one another, each with a class."""
    for number in range(count):
        ClassFile(f"C{number}").write(folder, f"C{number}.class")
        folder = os.path.join(folder, "d")
        os.mkdir(folder)


SHAPES = {
    made.__name__.replace("_", "-"): made
    for made in (
        nops, handlers, targets, changes, calls, constructor_calls, chain_calls, references, interface_calls,
        same_descriptors, same_descriptors_code, same_types, full, wide, wide_handlers, wide_stores, pushes,
        fields, methods, constants, texts, tiny, tables, lookups, names, deep,
    )
}

if __name__ == "__main__":
    os.makedirs(sys.argv[1], exist_ok=True)
    SHAPES[sys.argv[2]](int(sys.argv[3]), sys.argv[1])
