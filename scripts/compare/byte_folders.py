"""Folders whose class files javac would not write: shuffles of the operand stack, wide forms, values that are too wide for where they are put, switches and
handlers in odd places, and calls that the type checker lets through and that are refused when they are run."""
from class_bytes import NEWARRAY, ClassBytes

L = "library/L"
NAMED = {"I": "I", "J": "J", "F": "F", "D": "D", "A": "Ljava/lang/Object;"}
NARROW = "BSCZ"
LETTER = {"I": "i", "J": "l", "F": "f", "D": "d", "A": "a"}
INTS = (0, 1, -1, 2, 5, 31, 33, 127, 128, 255, 256, 300, -129, 32767, 32768, 65535, 65537, 2147483647, -2147483648)
LONGS = (0, 1, -1, 2, 63, 65, 1 << 32, -(1 << 31) - 1, (1 << 63) - 1, -(1 << 63))
FLOATS = (0, 0x80000000, 0x3f800000, 0x7f800001, 0x7fc00000, 0xffc00001)
DOUBLES = (0, 1 << 63, 0x7ff0000000000001, 0x7ff8000000000000, 0xfff8000000000001)
# What each form takes from the stack and leaves there, from below, of single values (a to d) and wide ones (A, B).
SHUFFLES = {"pop": ("a ",), "pop2": ("ab ", "A "), "dup": ("a aa",), "dup_x1": ("ab bab",), "dup_x2": ("abc cabc", "Ab bAb"),
            "dup2": ("ab abab", "A AA"), "dup2_x1": ("abc bcabc", "aB BaB"),
            "dup2_x2": ("abcd cdabcd", "abC CabC", "Abc bcAbc", "AB BAB"), "swap": ("ab ba",)}


class Straight:
    """Random code without jumps, whose types on the stack and in locals are known."""

    def __init__(self, rng, class_, descriptor, given):
        self.rng, self.class_ = rng, class_
        self.code = class_.code(descriptor)
        self.stack, self.locals, at = [], {}, 0
        for kind in given:
            self.locals[at] = kind
            at += 2 if kind in "JD" else 1
        self.kept = at
        self.steps = [self.push, self.push, self.push, self.load, self.load, self.store, self.shuffle, self.shuffle, self.shuffle, self.arithmetic,
                      self.arithmetic, self.use, self.ask, self.increment, self.narrow_static, self.narrow_field, self.narrow_element, self.narrow_call,
                      self.late_object, self.arrays, self.test]

    def run(self, count):
        for _ in range(count):
            if len(self.stack) > 10:
                self.use()
            self.rng.choice(self.steps)()
        while self.stack:
            self.use()
        return self.code

    def push(self, kind=None):
        rng, code, pool = self.rng, self.code, self.class_.pool
        kind = kind or rng.choice("IIJFDA")
        if kind == "I":
            self.push_int(rng.choice(INTS))
        elif kind == "A":
            draw = rng.randrange(4)
            if draw == 0:
                code.op("aconst_null")
            else:
                code.constant(pool.string("text") if draw == 1 else pool.class_(rng.choice((self.class_.name, "[[I", "java/lang/String"))), False)
        else:
            values = {"J": LONGS, "F": FLOATS, "D": DOUBLES}[kind]
            code.constant(pool.number(kind, rng.choice(values)), kind != "F")
        self.stack.append(kind)

    def push_int(self, value):
        if -1 <= value <= 5:
            self.code.op("iconst_m1" if value < 0 else f"iconst_{value}")
        elif -128 <= value < 128:
            self.code.op("bipush", "b", value)
        elif -32768 <= value < 32768:
            self.code.op("sipush", "h", value)
        else:
            self.code.constant(self.class_.pool.number("I", value), False)

    def load(self, kind=None):
        found = [at for at, own in self.locals.items() if kind in (None, own)]
        if not found:
            return self.push(kind)
        at = self.rng.choice(found)
        self.code.local(LETTER[self.locals[at]] + "load", at, self.rng.random() < 0.3)
        self.stack.append(self.locals[at])

    def store(self):
        if not self.stack:
            return self.push()
        kind = self.stack.pop()
        at = self.kept + self.rng.choice((0, 1, 2, 3, 4, 300))
        self.code.local(LETTER[kind] + "store", at, self.rng.random() < 0.3)
        for other in (at - 1, at, at + 1):
            own = self.locals.get(other)
            if own and (other == at or other == at - 1 and own in "JD" or other == at + 1 and kind in "JD"):
                del self.locals[other]
        self.locals[at] = kind

    def shuffle(self):
        name = self.rng.choice(list(SHUFFLES))
        forms = list(SHUFFLES[name])
        self.rng.shuffle(forms)
        for form in forms:
            takes, leaves = form.split(" ")
            top = self.stack[len(self.stack) - len(takes):] if len(self.stack) >= len(takes) else None
            if top and all((own in "JD") == letter.isupper() for own, letter in zip(top, takes)):
                del self.stack[len(self.stack) - len(takes):]
                self.stack += [top[takes.index(letter)] for letter in leaves]
                return self.code.op(name)
        self.push()

    def need(self, *kinds):
        for kind in kinds:
            self.load(kind) if self.rng.random() < 0.6 else self.push(kind)

    def arithmetic(self):
        name, takes, gives = self.rng.choice(
            [(f"i{it}", "II", "I") for it in ("add", "sub", "mul", "div", "rem", "shl", "shr", "ushr", "and", "or", "xor")]
            + [(f"l{it}", "JJ", "J") for it in ("add", "sub", "mul", "div", "rem", "and", "or", "xor")]
            + [(f"l{it}", "JI", "J") for it in ("shl", "shr", "ushr")]
            + [("ineg", "I", "I"), ("lneg", "J", "J"), ("i2l", "I", "J"), ("l2i", "J", "I"), ("i2b", "I", "I"), ("i2s", "I", "I"), ("i2c", "I", "I"),
               ("lcmp", "JJ", "I")])
        self.need(*takes)
        self.code.op(name)
        del self.stack[len(self.stack) - len(takes):]
        self.stack.append(gives)

    def use(self):
        if not self.stack:
            return self.push()
        self.code.call("invokestatic", L, "use", f"({NAMED[self.stack.pop()]})V")

    def ask(self):
        kind = self.rng.choice("IJFDA")
        self.code.call("invokestatic", L, "askO" if kind == "A" else f"ask{kind}", f"(){NAMED[kind]}")
        self.stack.append(kind)

    def increment(self):
        found = [at for at, own in self.locals.items() if own == "I"]
        if not found:
            return self.push("I")
        at, by = self.rng.choice(found), self.rng.choice((1, -1, 127, -128, 300, -32768))
        if at > 255 or not -128 <= by < 128 or self.rng.random() < 0.3:
            self.code.op("wide")
            self.code.op("iinc", "Hh", at, by)
        else:
            self.code.op("iinc", "Bb", at, by)

    def narrow_static(self):
        kind = self.rng.choice(NARROW)
        self.need("I")
        self.code.field("putstatic", self.class_.name, f"s{kind}", kind)
        self.code.field("getstatic", self.class_.name, f"s{kind}", kind)

    def narrow_field(self):
        kind = self.rng.choice(NARROW)
        self.code.field("getstatic", self.class_.name, "own", f"L{self.class_.name};")
        self.code.op("dup")
        self.need("I")
        self.code.field("putfield", self.class_.name, f"f{kind}", kind)
        self.code.field("getfield", self.class_.name, f"f{kind}", kind)

    def narrow_element(self):
        kind, letter = self.rng.choice((("boolean", "b"), ("byte", "b"), ("short", "s"), ("char", "c")))
        self.code.op("iconst_2")
        self.code.op("newarray", "B", NEWARRAY[kind])
        self.code.op("dup")
        self.code.op("iconst_1")
        self.need("I")
        self.code.op(letter + "astore")
        self.stack.pop()
        self.code.op("iconst_1")
        self.code.op(letter + "aload")
        self.stack.append("I")

    def narrow_call(self):
        kind = self.rng.choice(NARROW)
        self.need("I")
        self.code.call("invokestatic", self.class_.name, "narrow", f"({kind}){kind}")

    def late_object(self):
        """An object that is not initialised while the library is called, in a local or below others on the stack."""
        self.code.op("new", "H", self.class_.pool.class_(self.class_.name))
        if self.rng.random() < 0.5:
            at = self.kept + 7
            self.code.local("astore", at)
            self.ask()
            self.code.local("aload", at)
            self.code.call("invokespecial", self.class_.name, "<init>", "()V")
            self.code.local("aload", at)
        else:
            self.push("I")
            self.code.op("swap")
            self.code.op("dup_x1")
            self.code.call("invokestatic", L, "askI", "()I")
            self.code.call("invokestatic", L, "use", "(I)V")
            self.code.call("invokespecial", self.class_.name, "<init>", "()V")
            self.code.call("invokestatic", L, "use", "(I)V")
            self.stack.pop()
        self.stack.append("A")

    def arrays(self):
        """Arrays of arrays, of which some levels are made."""
        rng = self.rng
        counts = [rng.choice((0, 1, 2, 2)) for _ in range(rng.randint(1, 3))]
        for count in counts:
            self.code.op(f"iconst_{count}")
        self.code.op("multianewarray", "HB", self.class_.pool.class_(rng.choice(("[[[I", "[[[Z", "[[[Ljava/lang/String;"))), len(counts))
        self.stack.append("A")

    def test(self):
        self.need("A")
        type_ = self.rng.choice(("java/lang/String", "[Ljava/lang/Object;", "[[I", "java/lang/Cloneable", self.class_.name))
        self.code.op(self.rng.choice(("instanceof", "instanceof", "instanceof", "checkcast")), "H", self.class_.pool.class_(type_))
        self.stack[-1] = "I" if self.code.bytes[-3] == 0xc1 else "A"


def make_shared(class_):
    """The members that straight code uses."""
    class_.constructor()
    class_.field(9, "own", f"L{class_.name};")
    for kind in NARROW:
        class_.field(9, f"s{kind}", kind)
        class_.field(1, f"f{kind}", kind)
        code = class_.code(f"({kind}){kind}")
        code.op("iload_0")
        code.call("invokestatic", L, "use", "(I)V")
        code.op("iload_0")
        code.op("ireturn")
        class_.method(9, "narrow", f"({kind}){kind}", code)
    code = class_.code("()V")
    code.op("new", "H", class_.pool.class_(class_.name))
    code.op("dup")
    code.call("invokespecial", class_.name, "<init>", "()V")
    code.field("putstatic", class_.name, "own", f"L{class_.name};")
    code.op("return")
    class_.method(8, "<clinit>", "()V", code)


def straight(rng, class_, number):
    given = [rng.choice("IJFDA") for _ in range(rng.randint(0, 3))]
    descriptor = "(" + "".join(NAMED[it] for it in given) + ")V"
    code = Straight(rng, class_, descriptor, given).run(rng.randint(8, 40))
    code.op("return")
    class_.method(9, f"e{number}", descriptor, code)


def switch(rng, class_, number):
    """A switch whose targets stand in another order than its keys."""
    code = class_.code("(I)I")
    labels = [f"at{i}" for i in range(rng.randint(1, 4))]
    code.op("iload_0")
    if rng.random() < 0.5:
        code.op("nop")
    if rng.random() < 0.5:
        count = rng.randint(1, 5)
        low = rng.choice((0, -2, 1, 2147483647 - count + 1, -2147483648, 100))
        code.switch(rng.choice(labels), low, [rng.choice(labels) for _ in range(count)])
    else:
        keys = rng.sample(sorted(set(INTS)), rng.randint(0, 6))
        code.switch(rng.choice(labels), keys=[(key, rng.choice(labels)) for key in keys])
    for place, label in enumerate(rng.sample(labels, len(labels))):
        code.label(label, (["I"], []))
        code.op("bipush", "b", 10 + place)
        code.op("ireturn")
    class_.method(9, f"e{number}", "(I)I", code)


def handler(rng, class_, number):
    """Handlers before their ranges, one of which may cover a handler, and locals that were stored in the range."""
    code = class_.code("(ILjava/lang/Object;)I")
    frame = (["I", "java/lang/Object"], [])
    types = rng.sample(["java/lang/ArithmeticException", "java/lang/RuntimeException", "java/lang/NullPointerException", None], rng.randint(1, 3))
    code.jump("goto", "body")
    for place, type_ in enumerate(types):
        code.label(f"to{place}", (frame[0], [type_ or "java/lang/Throwable"]))
        code.call("invokestatic", L, "use", "(Ljava/lang/Object;)V")
        code.op("bipush", "b", 10 + place)
        code.op("iload_0")
        code.op("irem")
        code.op("ireturn")
    code.label("body", frame)
    code.op("iconst_5")
    code.op("istore", "B", 2)
    code.max_locals = 3
    code.op("bipush", "b", 100)
    code.op("iload_0")
    code.op(rng.choice(("idiv", "irem", "iadd")))
    code.op("istore_0")
    code.label("middle")
    code.op("aload_1")
    if rng.random() < 0.5:
        code.op("checkcast", "H", class_.pool.class_("java/lang/Throwable"))
        code.op("athrow")
    else:
        code.op("monitorenter")
        code.label("held")
        code.call("invokestatic", L, "askI", "()I")
        code.label("left")
        code.op("aload_1")
        code.op("monitorexit")
        code.op("ireturn")
        code.label("free", (frame[0], ["java/lang/Throwable"]))
        code.op("aload_1")
        code.op("monitorexit")
        code.op("athrow")
        code.handlers.append(("held", "left", "free", None))
    code.label("end")
    ranges = [("body", "end"), ("body", "middle"), ("middle", "end")] + [("to0", "body")] * (len(types) > 1)
    for place, type_ in enumerate(types):
        one, two = rng.choice(ranges if place and type_ else ranges[:3])
        code.handlers.append((one, two, f"to{place}", type_))
    class_.method(9, f"e{number}", "(ILjava/lang/Object;)I", code)


def held_twice(code):
    """A monitor that is entered twice, and left as often, also by an exception."""
    frame = ["java/lang/Object"], ["java/lang/Throwable"]
    for _ in range(2):
        code.op("aload_0")
        code.op("monitorenter")
    code.label("two")
    code.op("aload_0")
    code.call("invokestatic", L, "use", "(Ljava/lang/Object;)V")
    code.label("one")
    code.op("aload_0")
    code.op("monitorexit")
    code.label("still")
    code.call("invokestatic", L, "askI", "()I")
    code.op("pop")
    code.label("none")
    code.op("aload_0")
    code.op("monitorexit")
    code.op("return")
    code.label("from two", frame)
    code.op("aload_0")
    code.op("monitorexit")
    code.label("from one", frame)
    code.op("aload_0")
    code.op("monitorexit")
    code.op("athrow")
    code.handlers += [("two", "one", "from two", None), ("still", "none", "from one", None)]


def refused(rng, class_, number):
    """What the type checker lets through: a monitor that is not held, null that is thrown, an interface that is not implemented."""
    code = class_.code("(Ljava/lang/Object;)V")
    form = rng.randrange(4)
    if form == 0:
        code.op("new", "H", class_.pool.class_("java/lang/Object"))
        code.op("dup")
        code.call("invokespecial", "java/lang/Object", "<init>", "()V")
        code.op("dup")
        code.call("invokestatic", L, "use", "(Ljava/lang/Object;)V")
        code.op("monitorexit")
    elif form == 1:
        code.op("aconst_null")
        code.op(rng.choice(("athrow", "monitorexit", "monitorenter", "arraylength")))
        if code.bytes[-1] == 0xbe:
            code.call("invokestatic", L, "use", "(I)V")
        elif code.bytes[-1] == 0xbf:
            return class_.method(9, f"e{number}", "(Ljava/lang/Object;)V", code)
    elif form == 2:
        code.op("aload_0")
        code.call("invokeinterface", class_.name[:-4] + "I", rng.choice(("one", "two")), "()I", True)
        code.call("invokestatic", L, "use", "(I)V")
    else:
        held_twice(code)
        return class_.method(9, f"e{number}", "(Ljava/lang/Object;)V", code)
    code.op("return")
    class_.method(9, f"e{number}", "(Ljava/lang/Object;)V", code)


def interface_files(rng, package):
    """An interface with a private method and a private static one, which javac writes from Java 9 on, and a class that implements it."""
    it = ClassBytes(f"{package}/I", flags=0x601)
    it.method(0x401, "one", "()I")
    code = it.code("()I", False)
    code.op("aload_0")
    code.call("invokespecial", it.name, "hidden", "()I", True)
    code.call("invokestatic", it.name, "helper", "(I)I", True)
    code.op("ireturn")
    it.method(1, "two", "()I", code)
    code = it.code("()I", False)
    code.op("aload_0")
    code.call("invokeinterface", it.name, "one", "()I", True)
    code.op("ireturn")
    it.method(2, "hidden", "()I", code)
    code = it.code("(I)I")
    code.op("iload_0")
    code.op("dup")
    code.call("invokestatic", L, "use", "(I)V")
    code.op("ireturn")
    it.method(0xa, "helper", "(I)I", code)
    both = ClassBytes(f"{package}/C", interfaces=[it.name])
    both.constructor()
    code = both.code("()I", False)
    code.op("bipush", "b", rng.randint(6, 120))
    code.op("ireturn")
    both.method(1, "one", "()I", code)
    return {"I.class": it.bytes(), "C.class": both.bytes()}


def made(class_, number, name):
    code = class_.code("()Ljava/lang/Object;")
    code.op("new", "H", class_.pool.class_(name))
    code.op("dup")
    code.call("invokespecial", name, "<init>", "()V")
    code.op("areturn")
    class_.method(9, f"e{number}", "()Ljava/lang/Object;", code)


def byte_files(rng, package):
    class_ = ClassBytes(f"{package}/Main")
    make_shared(class_)
    made(class_, 0, f"{package}/C")
    for number in range(1, rng.randint(4, 8)):
        rng.choice((straight, straight, switch, handler, refused))(rng, class_, number)
    return {"Main.class": class_.bytes(), **interface_files(rng, package)}
