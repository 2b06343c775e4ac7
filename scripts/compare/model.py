"""What a generated folder declares: interfaces and classes with methods that share names and signatures."""

PRIMITIVES = ("int", "long", "byte", "short", "char", "boolean", "float", "double")
NARROW = ("byte", "short", "char")
# The highest number of a method's name, and with it of calls that are nested: a body of m3 calls methods of lower numbers alone.
LEVELS = 5


class Signature:
    def __init__(self, result, parameters):
        self.result, self.parameters = result, parameters


class Type:
    """An interface or class: `methods` maps a name to its form, `fields` are triples of modifiers, type and name."""

    def __init__(self, name, is_interface):
        self.name, self.is_interface = name, is_interface
        self.superclass, self.interfaces = None, []
        self.is_abstract = is_interface
        self.methods, self.fields = {}, []
        self.root = None

    def above(self):
        """The types that it extends and implements, all of them, itself first."""
        found = [self]
        for other in ([self.superclass] if self.superclass else []) + self.interfaces:
            found += [it for it in other.above() if it not in found]
        return found

    def superclasses(self):
        return [self] + (self.superclass.superclasses() if self.superclass else [])

    def has(self, name):
        return any(name in it.methods for it in self.above())

    def declarations(self, name):
        """The maximally specific declarations of a public method among the superinterfaces."""
        owners = [it for it in self.above()[1:] if it.is_interface and name in it.methods]
        return [it for it in owners if not any(it is not other and it in other.above() for other in owners)]

    def from_class(self, name):
        """The nearest superclass that declares the method."""
        for it in self.superclasses()[1:]:
            if name in it.methods:
                return it
        return None

    def needs(self, name):
        """Whether the type has to declare the method, since it would inherit none that javac takes, or several."""
        above = self.from_class(name)
        if above and above.methods[name] != "abstract":
            return False
        owners = self.declarations(name)
        forms = [it.methods[name] for it in owners]
        if above and forms:
            return True
        if len(owners) > 1 and "default" in forms:
            return True
        inherits = bool(above or owners)
        return inherits and not self.is_abstract and "default" not in forms


class Folder:
    """The types of a folder and the signatures of its methods' names."""

    def __init__(self, rng, package):
        self.rng, self.package = rng, package
        self.interfaces, self.classes = [], []
        self.signatures = {}
        self.throwables = []
        self.make_names()
        self.make_signatures()
        for it in self.interfaces:
            self.fill_interface(it)
        for it in self.classes:
            self.fill_class(it)

    def make_names(self):
        rng = self.rng
        for number in range(rng.choice((0, 1, 1, 2, 2, 3))):
            it = Type(f"I{number}", True)
            it.interfaces = rng.sample(self.interfaces, rng.randint(0, len(self.interfaces)))
            self.interfaces.append(it)
        for number in range(rng.randint(1, 4)):
            it = Type(f"C{number}", False)
            if self.classes and rng.random() < 0.65:
                it.superclass = rng.choice(self.classes)
                it.root = it.superclass.root
            else:
                it.root = rng.choice((None, None, None, "X"))
            it.interfaces = rng.sample(self.interfaces, rng.randint(0, len(self.interfaces)))
            it.is_abstract = rng.random() < 0.2 and number > 0
            self.classes.append(it)
        for number in range(rng.choice((0, 1, 1, 2))):
            it = Type(f"T{number}", False)
            it.superclass = self.throwables[0] if self.throwables and rng.random() < 0.6 else None
            it.root = "E"
            self.throwables.append(it)
        self.classes += self.throwables

    def named(self, name):
        for it in self.interfaces + self.classes:
            if it.name == name:
                return it
        return None

    def any_type(self):
        rng = self.rng
        names = [it.name for it in self.interfaces + self.classes]
        draw = rng.random()
        if draw < 0.35:
            return "int"
        if draw < 0.65:
            return rng.choice(PRIMITIVES)
        if draw < 0.75:
            return rng.choice(("Object", "Object", "String"))
        if draw < 0.88:
            return rng.choice(names)
        return rng.choice(PRIMITIVES + ("Object", names[0], "int[]")) + "[]"

    def make_signatures(self):
        for kind in "mvpq":
            for level in range(LEVELS):
                parameters = [self.any_type() for _ in range(self.rng.choice((0, 1, 1, 2, 3)))]
                self.signatures[f"{kind}{level}"] = Signature(self.rng.choice((self.any_type(), "int", "void")), parameters)

    def fill_interface(self, it):
        rng = self.rng
        for level in range(LEVELS):
            name = f"m{level}"
            if it.needs(name) or rng.random() < 0.3:
                it.methods[name] = rng.choice(("abstract", "default"))
        if rng.random() < 0.4:
            it.fields.append(("", rng.choice(("int", "Object", "long")), f"k{it.name}"))

    def fill_class(self, it):
        rng = self.rng
        for level in range(LEVELS):
            name = f"m{level}"
            if it.needs(name) or rng.random() < 0.25:
                it.methods[name] = "abstract" if it.is_abstract and rng.random() < 0.4 else "concrete"
            name = f"v{level}"
            above = it.from_class(name)
            if rng.random() < 0.25 and level:
                it.methods[name] = rng.choice(self.accesses_from(above.methods[name] if above else None))
            for kind, form in (("p", "private"), ("q", "static")):
                if rng.random() < 0.2 and level:
                    it.methods[f"{kind}{level}"] = form
        for number in range(rng.randint(0, 4)):
            static = rng.choice(("", "static "))
            it.fields.append((static, self.any_type(), f"{'s' if static else 'f'}{it.name}{number}"))

    @staticmethod
    def accesses_from(above):
        """The accesses that an overriding method may have."""
        order = ("package", "protected", "public")
        return order[order.index(above):] if above in order else order
