"""The source files of a folder of random classes."""
from expressions import Scope
from model import LEVELS, PRIMITIVES, Folder, Signature, Type
from statements import Statements, indented

FUEL = """package {package};
final class F {{
    static int left = 40;
    static boolean out() {{ return --left < 0; }}
}}
"""


class Sources:
    def __init__(self, rng, package):
        self.rng, self.folder = rng, Folder(rng, package)
        self.statements = Statements(self.folder, rng)

    def files(self):
        """Names and texts of the files."""
        package = self.folder.package
        files = {"F.java": FUEL.format(package=package), "Main.java": self.text(self.main())}
        for it in self.folder.interfaces:
            files[f"{it.name}.java"] = self.text(self.interface(it))
        for it in self.folder.classes:
            files[f"{it.name}.java"] = self.text(self.class_(it))
        return files

    def text(self, lines):
        return "\n".join([f"package {self.folder.package};", "import library.*;"] + lines) + "\n"

    def method(self, owner, head, signature, name, level, is_static=False, most=3):
        """A method with a body."""
        scope = Scope(owner, not is_static, level)
        scope.locals = [(f"a{i}", it) for i, it in enumerate(signature.parameters)]
        scope.result = signature.result
        body = self.statements.body(scope, most)
        if name.startswith("e"):
            body.insert(0, "F.left = 40;")
        return [f"{head}{signature.result} {name}({self.parameters(signature)}) throws Throwable {{"] + indented(body) + ["}"]

    @staticmethod
    def parameters(signature):
        return ", ".join(f"{it} a{i}" for i, it in enumerate(signature.parameters))

    def main(self):
        owner = Type("Main", False)
        lines = ["public class Main {"]
        made = [it.name for it in self.folder.classes if not it.is_abstract]
        for number, name in enumerate(made):
            lines.append(f"    public static {name} e{number}(int a0) throws Throwable {{ F.left = 40; return new {name}(a0); }}")
        for number in range(len(made), len(made) + self.rng.randint(3, 6)):
            signature = Signature(self.rng.choice((self.folder.any_type(), "int", "void")), [self.folder.any_type() for _ in range(self.rng.randint(0, 3))])
            lines += indented(self.method(owner, "public static ", signature, f"e{number}", LEVELS, is_static=True, most=5))
        return lines + ["}"]

    def interface(self, it):
        extends = " extends " + ", ".join(other.name for other in it.interfaces) if it.interfaces else ""
        lines = [f"public interface {it.name}{extends} {{"]
        for _, type_, name in it.fields:
            lines.append(f"    {type_} {name} = {({'int': 'L.askI()', 'long': 'L.askJ()', 'Object': 'L.askO()'})[type_]};")
        for name, form in it.methods.items():
            signature = self.folder.signatures[name]
            if form == "abstract":
                lines.append(f"    {signature.result} {name}({self.parameters(signature)}) throws Throwable;")
            else:
                lines += indented(self.method(it, "default ", signature, name, int(name[1])))
        return lines + ["}"]

    def class_(self, it):
        above = it.superclass.name if it.superclass else it.root
        head = ("public abstract class " if it.is_abstract else "public class ") + it.name + (f" extends {above}" if above else "")
        if it.interfaces:
            head += " implements " + ", ".join(other.name for other in it.interfaces)
        lines = [head + " {"]
        for static, type_, name in it.fields:
            access = self.rng.choice(("", "public ", "protected "))
            constant = ""
            if static and self.rng.random() < 0.3 and type_ in PRIMITIVES:
                constant = " = true" if type_ == "boolean" else f" = ({type_}) {self.rng.choice((5, -7))}"
            lines.append(f"    {access}{static}{type_} {name}{constant};")
        lines += indented(self.initialiser(it)) + indented(self.constructor(it))
        if it.root == "X" and self.rng.random() < 0.5:
            lines += indented(["public int outer(int value) {", "    L.use((Object) this);", "    return super.outer(value + 1);", "}"])
        for name, form in it.methods.items():
            signature = self.folder.signatures[name]
            if form == "abstract":
                lines.append(f"    public abstract {signature.result} {name}({self.parameters(signature)}) throws Throwable;")
                continue
            access = {"concrete": "public ", "public": "public ", "protected": "protected ", "private": "private ", "static": "static ", "package": ""}[form]
            sync = "synchronized " if self.rng.random() < 0.15 else ""
            lines += indented(self.method(it, access + sync, signature, name, int(name[1]), is_static=form == "static"))
        return lines + ["}"]

    def initialiser(self, it):
        """A class initialiser, out of which no exception comes."""
        if self.rng.random() < 0.4:
            return []
        scope = Scope(it, False, LEVELS)
        lines = [f"L.use({self.rng.randint(1000, 9999)});"]
        for static, type_, name in it.fields:
            if static and self.rng.random() < 0.8:
                lines.append(f"{name} = {self.statements.make(scope, type_, 2)};")
        scope.result = "void"
        extra = [line for line in self.statements.block(scope, 1, self.rng.randint(0, 2)) if " return" not in line]
        return ["static {", "    try {"] + indented(indented(lines + extra)) + ["    } catch (Throwable thrown) {", "        L.use((Object) thrown);", "    }", "}"]

    def constructor(self, it):
        scope = Scope(it, True, 1)
        scope.locals = [("a0", "int")]
        scope.result = "void"
        first = f"super({self.rng.choice(('a0', 'a0 + 1', '3'))});" if it.superclass else ""
        lines = []
        for static, type_, name in it.fields:
            if not static and self.rng.random() < 0.85:
                lines.append(f"this.{name} = {self.statements.make(scope, type_, 2)};")
        if self.rng.random() < 0.4:
            lines.append("L.use((Object) this);")
        lines += self.statements.block(scope, 1, self.rng.randint(0, 1))
        return [f"{it.name}(int a0) throws Throwable {{"] + indented([first] * bool(first) + ["if (F.out()) return;"] + lines) + ["}"]
