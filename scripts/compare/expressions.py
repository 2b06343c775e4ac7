"""Random expressions of Java, each of exactly the static type that is asked for or of one that an assignment widens to it."""
from model import LEVELS, NARROW, PRIMITIVES

INTS = ("0", "1", "2", "3", "5", "-1", "7", "31", "32", "33", "127", "128", "-128", "-129", "255", "256", "32767", "32768", "-32769", "65535", "65536", "100000",
        "2147483647", "(-2147483647 - 1)")
LONGS = ("0L", "1L", "-1L", "2L", "63L", "64L", "4294967296L", "-2147483649L", "9223372036854775807L", "(-9223372036854775807L - 1L)")
FLOATS = ("0.0f", "-0.0f", "1.0f", "2.0f", "1.5e-45f", "3.4028235e38f", "(0.0f / 0.0f)", "(1.0f / 0.0f)")
DOUBLES = ("0.0", "-0.0", "1.0", "4.9e-324", "1.7976931348623157e308", "(0.0 / 0.0)", "(-1.0 / 0.0)", "0.1")
STRINGS = ('"a"', '""', '"-"', '"two words"', '"100%"', '"\\u00e9\\u0000\\u20ac"', '"\\ud83d\\ude00"', '"b" + 1')


class Scope:
    """Where an expression stands: the locals, the class if there is a receiver, and the number below which methods may be called."""

    def __init__(self, owner, has_this, level):
        self.owner, self.has_this, self.level = owner, has_this, level
        self.locals = []
        self.result = None
        self.count = 0
        # Loops and switches around, whose names `break` and `continue` may say.
        self.loops = []

    def fresh(self):
        self.count += 1
        return f"x{self.count}"


class Expressions:
    def __init__(self, folder, rng):
        self.folder, self.rng = folder, rng

    # Types

    def is_below(self, one, other):
        if one == other or other == "Object" and one not in PRIMITIVES:
            return True
        if one.endswith("[]") and other.endswith("[]") and one[:-2] not in PRIMITIVES and other[:-2] not in PRIMITIVES:
            return self.is_below(one[:-2], other[:-2])
        type_ = self.folder.named(one)
        if type_ is None:
            return False
        if other in ("Throwable", "RuntimeException", "E", "X"):
            return type_.root == other or type_.root == "E" and other != "X"
        return any(it.name == other for it in type_.above())

    def reference_type(self):
        while True:
            it = self.folder.any_type()
            if it not in PRIMITIVES:
                return it

    # Any type

    def make(self, scope, type_, depth=None):
        if depth is None:
            depth = self.rng.choice((1, 2, 2, 3))
        if type_ in ("int", "long"):
            return self.number(scope, type_, depth)
        if type_ in NARROW:
            return self.narrow(scope, type_, depth)
        if type_ == "boolean":
            return self.boolean(scope, depth)
        if type_ in ("float", "double"):
            return self.moved(scope, type_, depth)
        return self.reference(scope, type_, depth)

    def exact(self, scope, type_, depth=None):
        return f"({type_}) ({self.make(scope, type_, depth)})"

    def places(self, scope, type_, depth):
        """Variables of exactly this type, that can be read and assigned."""
        found = [name for name, own in scope.locals if own == type_]
        for it in self.folder.classes:
            for static, own, name in it.fields:
                if own != type_:
                    continue
                if static:
                    found.append(f"{it.name}.{name}")
                else:
                    found += self.receivers(scope, it.name, name, depth)
        return found

    def receivers(self, scope, owner, member, depth):
        found = [f"{name}.{member}" for name, own in scope.locals if self.is_below(own, owner)]
        if scope.has_this and self.is_below(scope.owner.name, owner):
            found += [f"this.{member}", f"this.{member}"]
        if not found and depth > 1 and self.rng.random() < 0.3:
            found.append(f"(({owner}) {self.reference(scope, owner, depth - 2)}).{member}")
        return found

    def place(self, scope, type_, depth, is_read=True):
        """A variable of this type or an element of an array, or None."""
        found = self.places(scope, type_, depth)
        if is_read:
            found += [f"{it.name}.{name}" for it in self.folder.interfaces for _, own, name in it.fields if own == type_]
        arrays = [name for name, own in scope.locals if own == type_ + "[]"]
        if arrays and self.rng.random() < 0.5:
            return f"{self.rng.choice(arrays)}[{self.index(scope, depth - 1)}]"
        return self.rng.choice(found) if found else None

    def index(self, scope, depth):
        draw = self.rng.random()
        if draw < 0.8:
            return self.rng.choice(("0", "0", "0", "1", "2"))
        return f"({self.number(scope, 'int', max(depth, 0))}) & 1" if draw < 0.95 else self.number(scope, "int", 0)

    def length(self, scope, depth):
        if self.rng.random() < 0.6:
            return str(self.rng.randint(1, 3))
        return f"({self.number(scope, 'int', max(depth - 1, 0))}) {self.rng.choice(('& 3', '& 3', '% 3'))}"

    def called(self, scope, type_, depth):
        """A call whose result has this type, or None."""
        names = [name for name, it in self.folder.signatures.items() if it.result == type_ and int(name[1]) < scope.level]
        self.rng.shuffle(names)
        for name in names:
            found = self.call_of(scope, name, depth)
            if found:
                return found
        return None

    def arguments(self, scope, name, depth):
        return "(" + ", ".join(self.make(scope, it, depth - 1) for it in self.folder.signatures[name].parameters) + ")"

    def call_of(self, scope, name, depth):
        rng, found = self.rng, []
        for it in self.folder.interfaces + self.folder.classes:
            if name[0] == "q":
                if name in it.methods:
                    found += [below.name + "." + name for below in self.folder.classes if it in below.superclasses()]
            elif name[0] == "p":
                if it is scope.owner and name in it.methods:
                    found += [f"{own}.{name}" for own, type_ in scope.locals if type_ == it.name]
                    found += [f"this.{name}"] * 2 * scope.has_this
            elif it.has(name):
                found += self.receivers(scope, it.name, name, depth)
        owner = scope.owner
        if scope.has_this and name[0] in "mv" and not owner.is_interface:
            above = owner.from_class(name)
            if above and above.methods[name] != "abstract":
                found += [f"super.{name}"] * 2
        if scope.has_this and name[0] == "m":
            for it in owner.interfaces:
                if self.may_be_super(owner, it, name):
                    found += [f"{it.name}.super.{name}"] * 2
        return rng.choice(found) + self.arguments(scope, name, depth) if found else None

    @staticmethod
    def may_be_super(owner, it, name):
        """Whether IT.super.NAME is a call that javac takes: of one default, which no other superinterface that is named overrides."""
        others = [other for other in owner.interfaces + ([owner.superclass] if owner.superclass else []) if other is not it]
        if any(it in other.above() for other in others):
            return False
        if it.methods.get(name) == "default":
            return not any(name in other.methods and it in other.above() for other in owner.above()[1:] if other is not it)
        return False

    # Numbers

    def number(self, scope, type_, depth):
        rng = self.rng
        literals = INTS if type_ == "int" else LONGS
        if depth <= 0:
            names = [name for name, own in scope.locals if own == type_ or own in NARROW]
            return rng.choice(names) if names and rng.random() < 0.75 else rng.choice(literals)
        draw = rng.random()
        if draw < 0.12:
            return rng.choice(literals)
        if draw < 0.30:
            return self.place(scope, type_, depth) or self.number(scope, type_, 0)
        if draw < 0.58:
            return self.arithmetic(scope, type_, depth)
        if draw < 0.68:
            return self.called(scope, type_, depth) or self.number(scope, type_, depth - 1)
        if draw < 0.74:
            return f"({self.boolean(scope, depth - 1)} ? {self.number(scope, type_, depth - 1)} : {self.number(scope, type_, depth - 1)})"
        if draw < 0.82:
            return "L.askI()" if type_ == "int" else "L.askJ()"
        if draw < 0.90:
            return self.assigned(scope, type_, depth) or self.number(scope, type_, depth - 1)
        if type_ == "long":
            return f"(long) ({self.number(scope, 'int', depth - 1)})"
        return self.small(scope, depth)

    def small(self, scope, depth):
        """An int of what is no int."""
        rng = self.rng
        draw = rng.random()
        if draw < 0.3:
            return f"(int) ({self.number(scope, 'long', depth - 1)})"
        if draw < 0.6:
            type_ = rng.choice(NARROW)
            return f"({self.narrow(scope, type_, depth - 1)})"
        arrays = [name for name, own in scope.locals if own.endswith("[]")]
        if draw < 0.85 and arrays:
            return f"{rng.choice(arrays)}.length"
        if draw < 0.95:
            return f"({self.boolean(scope, depth - 1)} ? 1 : 0)"
        return f"((Object[]) (Object) ({self.reference(scope, 'Object', depth - 1)})).length"

    def arithmetic(self, scope, type_, depth):
        rng = self.rng
        one = self.number(scope, type_, depth - 1)
        draw = rng.random()
        if draw < 0.1:
            return f"({rng.choice(('-', '~'))}({one}))"
        if draw < 0.35:
            return f"(({one}) {rng.choice(('<<', '>>', '>>>'))} ({self.number(scope, rng.choice(('int', 'int', 'long')), depth - 1)}))"
        return f"(({one}) {rng.choice(('+', '-', '*', '/', '%', '/', '%', '&', '|', '^'))} ({self.number(scope, type_, depth - 1)}))"

    def assigned(self, scope, type_, depth):
        """An assignment, increment or compound assignment whose value has this type, or None."""
        rng = self.rng
        target = self.place(scope, type_, depth, is_read=False)
        if target is None:
            return None
        draw = rng.random()
        if draw < 0.3 and type_ not in ("boolean", "float", "double") and type_ in PRIMITIVES:
            return rng.choice((f"({target}++)", f"(--{target})", f"(++{target})"))
        if draw < 0.6 and type_ in PRIMITIVES and type_ not in ("float", "double"):
            if type_ == "boolean":
                return f"({target} {rng.choice(('&=', '|=', '^='))} {self.boolean(scope, depth - 1)})"
            return f"({target} {rng.choice(('+=', '-=', '*=', '/=', '%=', '<<=', '>>=', '>>>=', '^='))} {self.number(scope, rng.choice(('int', 'int', 'long')), depth - 1)})"
        return f"({target} = {self.make(scope, type_, depth - 1)})"

    def narrow(self, scope, type_, depth):
        rng = self.rng
        draw = rng.random()
        if depth > 0 and draw < 0.25:
            found = self.place(scope, type_, depth)
            if found:
                return found
        if depth > 0 and draw < 0.45:
            return {"byte": "L.askB()", "short": "L.askS()", "char": "L.askC()"}[type_]
        if depth > 0 and draw < 0.6:
            found = self.assigned(scope, type_, depth) or self.called(scope, type_, depth)
            if found:
                return found
        return f"({type_}) ({self.number(scope, 'int', depth - 1)})"

    def boolean(self, scope, depth):
        rng = self.rng
        draw = rng.random()
        if depth <= 0 or draw < 0.35:
            type_ = rng.choice(("int", "int", "long"))
            return f"({self.number(scope, type_, depth - 1)}) {rng.choice(('<', '<=', '>', '>=', '==', '!='))} ({self.number(scope, type_, depth - 1)})"
        if draw < 0.47:
            return self.place(scope, "boolean", depth) or "L.askZ()"
        if draw < 0.57:
            return "L.askZ()"
        if draw < 0.67:
            return f"((Object) ({self.reference(scope, 'Object', depth - 1)}) {rng.choice(('==', '!='))} (Object) ({self.reference(scope, 'Object', depth - 1)}))"
        if draw < 0.82:
            return f"((Object) ({self.reference(scope, 'Object', depth - 1)}) instanceof {self.reference_type()})"
        if draw < 0.88:
            return f"(!({self.boolean(scope, depth - 1)}))"
        if draw < 0.92:
            return self.called(scope, "boolean", depth) or "L.askZ()"
        return f"(({self.boolean(scope, depth - 1)}) {rng.choice(('&&', '||', '&', '|', '^'))} ({self.boolean(scope, depth - 1)}))"

    def moved(self, scope, type_, depth):
        """A float or double, which is only moved."""
        rng = self.rng
        draw = rng.random()
        if depth > 0 and draw < 0.4:
            found = self.place(scope, type_, depth)
            if found:
                return found
        if depth > 0 and draw < 0.6:
            return "L.askF()" if type_ == "float" else "L.askD()"
        if depth > 0 and draw < 0.7:
            return f"({self.boolean(scope, depth - 1)} ? {self.moved(scope, type_, depth - 1)} : {self.moved(scope, type_, depth - 1)})"
        if depth > 0 and draw < 0.8:
            found = self.called(scope, type_, depth)
            if found:
                return found
        return rng.choice(FLOATS if type_ == "float" else DOUBLES)

    # References

    def reference(self, scope, type_, depth):
        rng = self.rng
        draw = rng.random()
        names = [name for name, own in scope.locals if self.is_below(own, type_)]
        if scope.has_this and self.is_below(scope.owner.name, type_):
            names.append("this")
        if names and (depth <= 0 or draw < 0.3):
            return rng.choice(names)
        if depth <= 0:
            return self.fresh_object(scope, type_, 0)
        if draw < 0.45:
            found = self.place(scope, type_, depth)
            if found:
                return found
        if draw < 0.55:
            other = type_ if rng.random() < 0.75 else self.reference_type()
            return f"(({type_}) (Object) ({self.reference(scope, other, depth - 1)}))"
        if draw < (0.62 if type_ == "Object" else 0.56):
            return f"(({type_}) L.askO())"
        if draw < 0.70:
            found = self.called(scope, type_, depth)
            if found:
                return found
        if draw < 0.75:
            found = self.assigned(scope, type_, depth)
            if found:
                return found
        if draw < 0.80:
            return f"({self.boolean(scope, depth - 1)} ? ({type_}) ({self.reference(scope, type_, depth - 1)}) : ({type_}) ({self.reference(scope, type_, depth - 1)}))"
        return self.fresh_object(scope, type_, depth)

    def fresh_object(self, scope, type_, depth):
        """An object that is made, a constant, or null."""
        rng = self.rng
        if type_.endswith("[]"):
            return self.fresh_array(scope, type_, depth)
        if type_ == "String":
            return rng.choice(STRINGS)
        if type_ == "Object":
            draw = rng.random()
            if draw < 0.2:
                return rng.choice(STRINGS)
            if draw < 0.35:
                return rng.choice(["int[]", "Object", "String[][]"] + [it.name for it in self.folder.interfaces + self.folder.classes]) + ".class"
            if draw < 0.5:
                return "new Object()"
            if draw < 0.65:
                return self.fresh_array(scope, rng.choice(("int[]", "byte[]", "Object[]", "long[][]", "String[]")), depth)
        if scope.level >= 1:
            made = [it.name for it in self.folder.classes if not it.is_abstract and self.is_below(it.name, type_)]
            if made and rng.random() < 0.85:
                return f"new {rng.choice(made)}({self.number(scope, 'int', depth - 1)})"
        return f"({type_}) null"

    def fresh_array(self, scope, type_, depth):
        rng = self.rng
        component = type_[:-2]
        if component.endswith("[]"):
            base = component.replace("[]", "")
            second = rng.choice(("", self.length(scope, depth)))
            return f"new {base}[{self.length(scope, depth)}][{second}]" + "[]" * (component.count("[]") - 1)
        if rng.random() < 0.4:
            return f"new {component}[] {{" + ", ".join(self.make(scope, component, depth - 1) for _ in range(rng.choice((0, 1, 2, 2, 3)))) + "}"
        below = [it.name for it in self.folder.classes + self.folder.interfaces if self.is_below(it.name, component)] + [component]
        if component == "Object":
            below.append("String")
        made = rng.choice(below) if component not in PRIMITIVES and rng.random() < 0.4 else component
        return f"new {made}[{self.length(scope, depth)}]"
