"""Random statements of Java, and the bodies of methods."""
from expressions import Expressions
from model import PRIMITIVES

MACHINE = ("ArithmeticException", "NullPointerException", "ArrayIndexOutOfBoundsException", "NegativeArraySizeException", "ClassCastException",
           "ArrayStoreException", "IllegalMonitorStateException")
DEFAULTS = {"void": "", "boolean": " false", "char": " 'c'", "byte": " (byte) 1", "short": " (short) 2"}


def indented(lines):
    return ["    " + line for line in lines]


class Statements(Expressions):
    def __init__(self, folder, rng):
        super().__init__(folder, rng)
        # Each folder prefers some sorts of statements.
        self.kinds = [self.declaration, self.use, self.assignment, self.call, self.choice, self.loop, self.switch, self.attempt, self.attempt, self.guarded,
                      self.throw, self.leave, self.jump]
        self.kinds += [rng.choice(self.kinds)] * 3 + [rng.choice(self.kinds)] * 3

    def body(self, scope, most):
        """The statements of a method, and its return."""
        default = DEFAULTS.get(scope.result, " 1" if scope.result in PRIMITIVES else " null")
        lines = [f"if (F.out()) return{default};"]
        lines += self.block(scope, 2, self.rng.randint(1, most))
        if scope.result != "void":
            lines.append(f"return {self.make(scope, scope.result)};")
        return lines

    def block(self, scope, depth, count):
        known = len(scope.locals)
        lines = []
        for _ in range(count):
            lines += self.rng.choice(self.kinds)(scope, depth)
        del scope.locals[known:]
        return lines

    def inner(self, scope, depth):
        return indented(self.block(scope, depth - 1, self.rng.choice((1, 1, 1, 2, 2))))

    def declaration(self, scope, depth):
        type_ = self.folder.any_type()
        value = self.make(scope, type_)
        name = scope.fresh()
        scope.locals.append((name, type_))
        return [f"{type_} {name} = {value};"]

    def use(self, scope, depth):
        type_ = self.folder.any_type()
        if self.rng.random() < 0.1:
            return [f"L.use(L.mix({self.make(scope, 'Object', 2)}, {self.make(scope, 'long', 2)}, {self.make(scope, 'byte', 2)}, {self.make(scope, 'double', 2)}));"]
        if type_ not in PRIMITIVES:
            type_ = "Object"
        return [f"L.use({self.exact(scope, type_)});"]

    def assignment(self, scope, depth):
        for _ in range(6):
            value = self.assigned(scope, self.folder.any_type(), 2)
            if value:
                return [f"{value[1:-1]};"]
        return self.use(scope, depth)

    def call(self, scope, depth):
        names = [name for name in self.folder.signatures if int(name[1]) < scope.level]
        self.rng.shuffle(names)
        for name in names:
            found = self.call_of(scope, name, 2)
            if found:
                return [f"{found};"]
        if scope.has_this and scope.owner.root == "X" and not scope.owner.is_interface:
            return [f"L.use({self.rng.choice(('this', 'super'))}.outer({self.number(scope, 'int', 2)}));"]
        return self.use(scope, depth)

    def choice(self, scope, depth):
        if depth <= 0:
            return self.use(scope, depth)
        lines = [f"if ({self.boolean(scope, 2)}) {{"] + self.inner(scope, depth)
        if self.rng.random() < 0.5:
            lines += ["} else {"] + self.inner(scope, depth)
        return lines + ["}"]

    def loop(self, scope, depth):
        if depth <= 0:
            return self.declaration(scope, depth)
        rng = self.rng
        label, name = f"l{scope.fresh()}", scope.fresh()
        scope.loops.append(label)
        scope.locals.append((name, "int"))
        inner = self.inner(scope, depth)
        scope.loops.pop()
        scope.locals.pop()
        bound = f"{name} < {rng.randint(1, 4)} && !F.out()"
        form = rng.randrange(3)
        if form == 0:
            return [f"{label}: for (int {name} = 0; {bound}; {name}++) {{"] + inner + ["}"]
        if form == 1:
            return [f"int {name} = 0;", f"{label}: while ({bound}) {{", f"    {name}++;"] + inner + ["}"]
        return [f"int {name} = 0;", f"{label}: do {{", f"    {name}++;"] + inner + [f"}} while ({bound});"]

    def switch(self, scope, depth):
        if depth <= 0:
            return self.assignment(scope, depth)
        rng = self.rng
        sparse = rng.random() < 0.5
        keys = rng.sample((-2147483648, -1, 0, 1, 100, 65536, 2147483647, 3) if sparse else range(-1, 6), rng.randint(1, 4))
        value = self.number(scope, "int", 2)
        label = f"l{scope.fresh()}"
        lines = [f"{label}: switch ((int) ({value}){'' if sparse else ' & 7'}) {{"]
        for key in keys + (["default"] if rng.random() < 0.7 else []):
            lines.append("    default: {" if key == "default" else f"    case {key}: {{")
            lines += indented(self.inner(scope, depth)) + ["    }"]
            if rng.random() < 0.6:
                lines.append(f"    break {label};")
        return lines + ["}"]

    def attempt(self, scope, depth):
        if depth <= 0:
            return self.call(scope, depth)
        rng = self.rng
        lines = ["try {"] + self.inner(scope, depth)
        for types in self.caught():
            name = scope.fresh()
            lines.append(f"}} catch ({types} {name}) {{")
            scope.locals.append((name, "Throwable"))
            lines.append(f"    L.use((Object) {name});")
            lines += self.inner(scope, depth)
            if rng.random() < 0.25:
                lines.append(f"    if ({self.boolean(scope, 2)}) throw {name};")
            scope.locals.pop()
        if rng.random() < 0.4 or not any(line.startswith("} catch") for line in lines):
            lines += ["} finally {"] + self.inner(scope, depth)
        return lines + ["}"]

    def caught(self):
        """The types of some catches, none behind a type above it."""
        rng = self.rng
        order = [it.name for it in sorted(self.folder.throwables, key=lambda it: -len(it.superclasses()))]
        order += rng.sample(MACHINE, 2) + ["E", "RuntimeException", "Throwable"]
        chosen = [it for it in order if rng.random() < 0.2]
        if len(chosen) > 1 and chosen[0] in MACHINE and chosen[1] in MACHINE and rng.random() < 0.5:
            chosen[:2] = [f"{chosen[0]} | {chosen[1]}"]
        return chosen

    def guarded(self, scope, depth):
        if depth <= 0:
            return self.use(scope, depth)
        return [f"synchronized ({self.reference(scope, 'Object', 2)}) {{"] + self.inner(scope, depth) + ["}"]

    def throw(self, scope, depth):
        names = [name for name, own in scope.locals if own == "Throwable" or self.is_below(own, "Throwable")]
        made = [it.name for it in self.folder.throwables if not it.is_abstract]
        if names and self.rng.random() < 0.5:
            value = self.rng.choice(names)
        elif made and scope.level >= 1 and self.rng.random() < 0.8:
            value = f"new {self.rng.choice(made)}({self.number(scope, 'int', 1)})"
        else:
            value = self.rng.choice(("(Throwable) L.askO()", "(E) (Object) null"))
        return [f"if (L.askZ() & {self.boolean(scope, 2)}) throw {value};"]

    def leave(self, scope, depth):
        value = "" if scope.result == "void" else " " + self.make(scope, scope.result, 2)
        return [f"if ({self.boolean(scope, 2)}) return{value};"]

    def jump(self, scope, depth):
        if not scope.loops:
            return self.declaration(scope, depth)
        return [f"if ({self.boolean(scope, 2)}) {self.rng.choice(('break', 'continue'))} {self.rng.choice(scope.loops)};"]
