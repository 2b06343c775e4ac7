"""Folders of few classes for what random classes do not reach. Some classes are compiled once more from another source, against which the others
were not compiled: a field becomes constant or final, a method abstract, private or a second default."""

FUEL_FREE = "package {package};\nimport library.*;\n"


def texts(package, files):
    return {name + ".java": FUEL_FREE.format(package=package) + text for name, text in files.items()}


def constants(rng):
    """ConstantValues that are read by getstatic, before and while the class initialiser runs, and by that of the superclass."""
    number = rng.choice((5, -7, 300, 70000))
    fields = [("int", str(number)), ("long", "-8589934592L"), ("byte", "(byte) 200"), ("short", "(short) 40000"), ("char", "(char) 65535"), ("boolean", "true"),
              ("float", "(0.0f / 0.0f)"), ("double", "-0.0"), ("String", '"%"')]
    rng.shuffle(fields)
    fields = fields[:rng.randint(2, 9)]
    use = "".join(f"L.use({'(Object) ' if type_ == 'String' else ''}Q.c{at}); " for at, (type_, _) in enumerate(fields))
    body = "{} {{ static int seen = note(); static int note() {{ L.use(7); return L.askI(); }} {} }}\n"
    first = "".join(f"static {type_} c{at} = {value}; " for at, (type_, value) in enumerate(fields))
    second = first.replace("static ", "static final ")
    head = "public class Q extends P"
    return {"P": f"class P {{ static {{ L.use(1); {use if rng.random() < 0.7 else ''}L.use(2); }} }}\n", "Q": body.format(head, first),
            "Main": f"public class Main {{ public static void e0() {{ {use}L.use(Q.seen); }} public static Object e1() {{ return new Q(); }} }}\n"}, {
                "Q": body.format(head, second)}


def abstract(rng):
    """A call that finds an abstract method: of an interface, of a superclass, and by super."""
    first = {"I": "public interface I { int one(); default int two() { return 2; } }\n",
             "B": "public abstract class B { public int three() { return 3; } }\n",
             "C": "public class C extends B implements I { public int one() { return L.askI(); } public int four() { L.use(4); return super.three(); } }\n",
             "D": "public class D extends C { public int three() { L.use((Object) this); return 33; } }\n"}
    calls = ["((I) c).two()", "c.two()", "((B) c).three()", "c.three()", "c.four()", "((I) c).one()"]
    entries = "".join(f"public static int e{at + 2}(C c) {{ L.use(1); return {rng.choice(calls)} + {rng.choice(calls)}; }} " for at in range(3))
    first["Main"] = ("public class Main { public static C e0() { return new C(); } public static C e1() { return new D(); } " + entries + "}\n")
    return first, {"I": first["I"].replace("default int two() { return 2; }", "int two();"),
                   "B": first["B"].replace("public int three() { return 3; }", "public abstract int three();")}


def twice(rng):
    """Two defaults, none of which overrides the other, and one that overrides the other."""
    below = rng.choice(("", " extends I"))
    # Of two defaults HotSpot throws AbstractMethodError where an interface's call finds them, against JVMS 6.5 (SE 8).
    by_interface = " public static int e3(C c) { L.use(1); return ((I) c).two(); }" if below else ""
    first = {"I": "public interface I { default int two() { return L.askI(); } }\n", "J": f"public interface J{below} {{ int one(); }}\n",
             "C": "public class C implements I, J { public int one() { return 1; } }\n",
             "D": "public class D extends C { public int two() { L.use((Object) this); return 22; } }\n",
             "Main": "public class Main { public static C e0() { return new C(); } public static C e1() { return new D(); } "
                     "public static int e2(C c) { L.use(1); return c.two(); }" + by_interface + " }\n"}
    return first, {"J": first["J"].replace("int one();", "int one(); default int two() { L.use(3); return 3; }")}


def not_public(rng):
    """A method that an interface's call selects and that is not public, in a superclass or the class above."""
    first = {"I": "public interface I { default int two() { return L.askI(); } }\n", "A": "public class A { }\n", "B": "public class B extends A { }\n",
             "C": "public class C extends B implements I { }\n",
             "Main": "public class Main { public static C e0() { return new C(); } public static int e1(I c) { L.use(1); return c.two(); } "
                     "public static int e2(C c) { L.use(1); return c.two(); } }\n"}
    owner = rng.choice("AB")
    access = rng.choice(("", "protected ", "public "))
    return first, {owner: first[owner].replace("{ }", f"{{ {access}int two() {{ L.use(5); return 5; }} }}")}


def final_fields(rng):
    """Stores into final fields outside of the class that declares them, whose class initialiser was run before."""
    first = {"K": "public class K { int x; long w; static int y = L.askI(); K() { x = L.askI(); } }\n",
             "D": "public class D extends K { D() { w = 5; L.use(w); } }\n",
             "Main": "public class Main { static K k; public static K e0() { return k = new K(); } public static K e1() { L.use(K.y); return new D(); } "
                     "public static int e2(K k) { L.use(K.y); k.x = L.askI(); return k.x; } "
                     "public static int e3(K k) { L.use(K.y); try { K.y = L.askI(); } catch (IllegalAccessError e) { L.use((Object) e); } return K.y; } "
                     "public static int e4(K k) { L.use(K.y); k.x++; return k.x; } }\n"}
    places = rng.sample(("int x;", "long w;", "static int y"), rng.randint(1, 2))
    second = first["K"].replace("x = L.askI();", "x = L.askI(); w = 7;")
    for it in places:
        second = second.replace(it, "static final int y" if it.startswith("static") else "final " + it)
    return first, {"K": second}


def init_throws(rng):
    """A class initialiser out of which an exception comes, which ends the run."""
    caught = rng.choice(("RuntimeException", "ArithmeticException", "NullPointerException"))
    wrong = rng.choice(("10 / zero()", "new int[zero() - 1].length", "((Object[]) (Object) new int[zero()]).length"))
    uses = rng.choice(("K.v", "new K().w", "K.get()"))
    return {"K": f"public class K {{ int w; static int v = {wrong}; static int zero() {{ L.use(7); return 0; }} static int get() {{ return 1; }} }}\n",
            "D": "public class D extends K { static int u = L.askI(); }\n",
            "Main": f"public class Main {{ public static int e0() {{ L.use(1); return L.askI(); }} public static int e1() {{ L.use(2); try {{ return {uses}; }} "
                    f"catch ({caught} e) {{ L.use((Object) e); return 4; }} }} public static int e2() {{ return D.u; }} }}\n"}, {}


def packages(rng):
    """Methods with package access in two packages, which override those of their own package alone until one is public."""
    public_from = rng.randint(0, 4)
    access = ["public " if at >= public_from else "" for at in range(4)]
    method = "{}int v() {{ return {}; }} "
    first = {"A": "public class A { " + method.format(access[0], 10) + "int inA() { return v(); } }\n",
             "s/B": "public class B extends {p}.A {{ " + method.format(access[1], 20).replace("{", "{{").replace("}", "}}") + "public int inB() {{ return v(); }} }}\n",
             "C": "public class C extends {p}.s.B {{ " + method.format(access[2], 30).replace("{", "{{").replace("}", "}}") + "int inC() {{ return v(); }} }}\n",
             "s/D": "public class D extends {p}.C {{ " + method.format(access[3], 40).replace("{", "{{").replace("}", "}}") + "public int inD() {{ return v(); }} "
                    + ("public int up() {{ return super.v(); }} " if public_from < 3 else "") + "}}\n",
             "Main": "import {p}.s.*;\npublic class Main {{ public static A e0() {{ return new A(); }} public static A e1() {{ return new B(); }} "
                     "public static A e2() {{ return new C(); }} public static A e3() {{ return new D(); }} "
                     "public static int e4(A a) {{ L.use(a.v()); L.use(a.inA()); return ((B) a).inB(); }} "
                     "public static int e5(C c) {{ L.use(c.v()); L.use(c.inC()); return ((D) c).inD(); }} }}\n"}
    return first, {}


SORTS = (constants, abstract, twice, not_public, final_fields, init_throws, packages)


def separate_files(rng, package, sort):
    """The sources by path in the folder of the sources, and those that are compiled once more."""
    first, second = SORTS[sort % len(SORTS)](rng)
    if SORTS[sort % len(SORTS)] is packages:
        files = {}
        for name, text in first.items():
            own = package + (".s" if name.startswith("s/") else "")
            text = text.format(p=package) if name != "A" else text
            files[name + ".java"] = f"package {own};\nimport library.*;\n{text}"
        return files, {}
    return texts(package, first), texts(package, second)
