"""hierarchy_sizes.py FOLDER SHAPE COUNT: writes class files whose hierarchy has this shape. A name has five digits, so that names of
classes are in the order of their numbers.

    interfaces  so many interfaces, each extending the one before
    diamonds    so many interfaces in layers of two, each extending both of the layer before
    crossed     the same, where the second names both in the other order
    inherited   a chain of so many classes, each with an interface of its own, which has no other above it
    overriding  a chain of so many classes, each overriding the same 60 methods
    finals      a chain of so many classes, each in a package of its own, with 60 final methods that only their packages see
    private     a chain of so many classes, each with the same 60 private final methods
    elsewhere   overriding, and a class outside of the chain in which these methods are final
    circle      so many classes, each below the next, and the last below the first
    below       a circle of two classes, and so many below it
    lattice     64 interfaces, of which each but the first four is below two, and so many classes: each below that of a quarter of its
                number, and every seventh with one or two of the interfaces; their names are the last in byte order
    chain       so many classes, each below the one before"""
import os
import struct
import sys

OBJECT = "java/lang/Object"
PUBLIC, PRIVATE, FINAL, SUPER, INTERFACE, ABSTRACT = 0x0001, 0x0002, 0x0010, 0x0020, 0x0200, 0x0400
METHODS = [f"m{number:02}" for number in range(60)]


class Pool:
    def __init__(self):
        self.constants, self.indices = [], {}

    def index(self, key, content):
        if key not in self.indices:
            self.constants.append(content())
            self.indices[key] = len(self.constants)
        return self.indices[key]

    def utf8(self, text):
        data = text.encode()
        return self.index(data, lambda: b"\1" + struct.pack(">H", len(data)) + data)

    def class_(self, name):
        text = self.utf8(name)
        return self.index((7, text), lambda: b"\7" + struct.pack(">H", text))


def class_file(name, flags, superclass=OBJECT, interfaces=(), methods=(), method_flags=0):
    """Each of the methods returns at once."""
    pool = Pool()
    head = struct.pack(">HHH", flags, pool.class_(name), pool.class_(superclass))
    head += struct.pack(">H", len(interfaces)) + b"".join(struct.pack(">H", pool.class_(one)) for one in interfaces)
    code = struct.pack(">HHI", 0, 1, 1) + b"\xb1" + struct.pack(">HH", 0, 0)
    members = b""
    for method in methods:
        text = struct.pack(">HHHHH", method_flags, pool.utf8(method), pool.utf8("()V"), 1, pool.utf8("Code"))
        members += text + struct.pack(">I", len(code)) + code
    pool_bytes = struct.pack(">H", len(pool.constants) + 1) + b"".join(pool.constants)
    body = head + struct.pack(">HH", 0, len(methods)) + members + struct.pack(">H", 0)
    return struct.pack(">IHH", 0xCAFEBABE, 0, 52) + pool_bytes + body


def interface(name, above=()):
    return name, class_file(name, PUBLIC | INTERFACE | ABSTRACT, OBJECT, above)


def class_below(name, superclass, **rest):
    return name, class_file(name, PUBLIC | SUPER, superclass, **rest)


def chain(count, name_of, **rest):
    superclass = OBJECT
    for number in range(count):
        yield class_below(name_of(number), superclass, **rest)
        superclass = name_of(number)


def plain(number):
    return f"C{number:05}"


def interfaces(count):
    for number in range(count):
        yield interface(f"I{number:05}", [f"I{number - 1:05}"] if number else [])


def layers(count, orders):
    above = []
    for layer in range(count // 2):
        names = [f"{letter}{layer:05}" for letter in "AB"]
        for name, order in zip(names, orders):
            yield interface(name, above[::order])
        above = names


def inherited(count):
    superclass = OBJECT
    for number in range(count):
        yield interface(f"J{number:05}")
        yield class_below(plain(number), superclass, interfaces=[f"J{number:05}"])
        superclass = plain(number)


def elsewhere(count):
    yield from chain(count, plain, methods=METHODS, method_flags=PUBLIC)
    yield class_below("Other", OBJECT, methods=METHODS, method_flags=PUBLIC | FINAL)


def circle(count):
    for number in range(count):
        yield class_below(plain(number), plain((number + 1) % count))


def below(count):
    for number in range(count):
        yield class_below(plain(number), "Y")
    yield class_below("Y", "Z")
    yield class_below("Z", "Y")


def lattice(count):
    def face(number):
        return f"I{number % 64:06X}"

    for number in range(64):
        yield interface(face(number), [face(number // 2), face(number // 3)] if number > 3 else [])
    for number in range(count):
        faces = [face(number // 7), face(number // 7 + 1)][:{0: 1, 7: 2}.get(number % 14, 0)]
        yield class_below(f"C{number:06X}", f"C{number // 4:06X}" if number else OBJECT, interfaces=faces)


SHAPES = {
    "interfaces": interfaces,
    "diamonds": lambda count: layers(count, (1, 1)),
    "crossed": lambda count: layers(count, (1, -1)),
    "inherited": inherited,
    "overriding": lambda count: chain(count, plain, methods=METHODS, method_flags=PUBLIC),
    "finals": lambda count: chain(count, lambda n: f"p{n:05}/C", methods=METHODS, method_flags=FINAL),
    "private": lambda count: chain(count, plain, methods=METHODS, method_flags=PRIVATE | FINAL),
    "elsewhere": elsewhere,
    "circle": circle,
    "below": below,
    "lattice": lattice,
    "chain": lambda count: chain(count, plain),
}

for name, content in SHAPES[sys.argv[2]](int(sys.argv[3])):
    path = os.path.join(sys.argv[1], name + ".class")
    os.makedirs(os.path.dirname(path), exist_ok=True)
    with open(path, "wb") as file:
        file.write(content)
