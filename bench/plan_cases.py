"""plan_cases.py SHAPE COUNT TIMES: prints a file of cases for cases_expand that asks so many times whether the least plan of flat code of so
many points saves something. The code has about 256 sites, whose objects are stored in local units.

    straight    straight code: blocks with a site each, whose ints are written and read
    linked      the same, where the object of the block before is written and read
    joined      the same with a jump to the last point in place of each use
    caught      the same with divisions inside 64 handlers behind the code
    nested      six loops in one another, which begin with such blocks, and calls in the innermost that take objects
    looped      the same, where the object of the block before is written and read

In three more shapes COUNT is something else:

    thrown      divisions inside so many handlers, which lead to 64 points behind the code
    broad       8,000 points with so many local units
    sunk        200 points with so many stack entries below one whose type is Top"""
import sys

HANDLERS, LEVELS = 64, 6
FOLDER = (
    "folder public P Object / field public x {} / field public y I | public L Object / method public+static use (LP;)V"
    " / method public+static run ()V"
)


class Code:
    """Points and sites of code with so many levels, each with so many local units, sites and points."""

    def __init__(self, uses, levels, slots, sites, points):
        self.uses, self.levels, self.slots, self.sites, self.size = uses, levels, slots, sites, points
        self.points, self.places = [], []
        self.link = "LP;" if uses == "objects" else "I"

    def push(self, instr, level, stored, stack="", handlers=""):
        """Appends a point of a level, at which so many sites of the level have been stored."""
        counts = [self.sites if one < level else stored if one == level else 0 for one in range(self.levels)]
        units = ["P" if slot < count else "T" for count in counts for slot in range(self.slots)]
        types = " ".join(["I", *units, "|", *stack.split()])
        self.points.append(", ".join([instr, types, *([handlers] if handlers else [])]))

    def local(self, level, site):
        return level * self.slots + site % self.slots + 1

    def reference(self, word, local):
        return f"a{word}_{local}" if local < 4 else f"a{word} {local}"

    def block(self, level, site):
        """A block: a new object, which is stored and used."""
        begun, size, stored = len(self.points), self.size // self.sites, site + 1
        self.places.append(begun)
        self.push("new P", level, site)
        self.push(self.reference("store", self.local(level, site)), level, site, "P")
        if self.uses in ("ints", "objects"):
            for number in range((size - 2) // 3):
                self.push(self.reference("load", self.local(level, site)), level, stored)
                self.use(number % 2 == 0, level, site)
        elif site >= self.slots:
            self.ways(size, stored)
        while len(self.points) < begun + size:
            self.push("nop", level, stored)

    def use(self, writes, level, site):
        """A write or a read of the field of the object on the stack."""
        stored, field = site + 1, f"P x {self.link}"
        if self.uses == "ints":
            if writes:
                self.push("iload_0", level, stored, "P")
                self.push(f"putfield {field}", level, stored, "P I")
            else:
                self.push(f"getfield {field}", level, stored, "P")
                self.push("istore_0", level, stored, "I")
            return
        other = self.local(level, max(site - 1, 0))
        if writes and site > 0:
            self.push(self.reference("load", other), level, stored, "P")
            self.push(f"putfield {field}", level, stored, "P P")
        else:
            self.push(f"getfield {field}", level, stored, "P")
            self.push(self.reference("store", other), level, stored, "P")

    def ways(self, size, stored):
        """Jumps to the end of straight code, or divisions inside handlers that stand behind it."""
        if self.uses == "jumps":
            for _ in range((size - 2) // 2):
                self.push("iload_0", 0, stored)
                self.push(f"@ifeq {self.size}", 0, stored, "I")
            return
        handlers = " ".join(f"{self.size + 1 + number}:*" for number in range(HANDLERS))
        for _ in range((size - 2) // 4):
            self.push("iload_0", 0, stored)
            self.push("iload_0", 0, stored, "I")
            self.push("idiv", 0, stored, "I I", handlers)
            self.push("istore_0", 0, stored, "I")

    def blocks(self, level):
        begun = len(self.points)
        for site in range(self.sites):
            self.block(level, site)
        while len(self.points) < begun + self.size:
            self.push("nop", level, self.sites)

    def question(self):
        fields = "P:P:I" if self.uses == "objects" else "P:I:I"
        sites = " ".join(f"{at}={fields}" for at in self.places)
        return f"plan_gain {self.levels * self.slots + 1} {sites} ; {' ; '.join(self.points)} => true"


def sites_in(count, levels):
    """How many sites each level has: 256 in all, where the blocks have at least seven points."""
    return max(1, min(256 // levels, count // 8 // levels))


def straight(uses, count):
    caught = HANDLERS if uses == "divisions" else 0
    code = Code(uses, 1, 16, sites_in(count, 1), count - 1 - caught)
    code.blocks(0)
    code.push("return", 0, code.sites)
    for _ in range(caught):
        code.push("athrow", 0, code.sites, "java/lang/Throwable")
    return code


def nested(uses, count):
    # without the tests, the calls, the jumps back and the return
    code = Code(uses, LEVELS, 3, sites_in(count, LEVELS), (count - 31) // LEVELS)
    heads = [level * (code.size + 2) for level in range(LEVELS + 1)]
    for level in range(LEVELS):
        behind = heads[LEVELS] + 2 * LEVELS + LEVELS - level
        code.push("iload_0", level, 0)
        code.push(f"@ifeq {behind}", level, 0, "I")
        code.blocks(level)
    for level in range(LEVELS):
        code.push(code.reference("load", code.local(level, 0)), LEVELS - 1, code.sites)
        code.push("invokestatic L use (LP;)V", LEVELS - 1, code.sites, "P")
    for level in reversed(range(LEVELS)):
        code.push(f"@goto {heads[level]}", level, code.sites)
    code.push("return", 0, 0)
    return code


class Given:
    """Points that stand there as they are, the first of which is a site."""

    link = "I"

    def __init__(self, units, points):
        self.units, self.points = units, points

    def question(self):
        return f"plan_gain {self.units} 0=P:I:I ; {' ; '.join(self.points)} => true"


def thrown(uses, count):
    points = ["new P, I T |", "astore_1, = | P"]
    blocks = (8000 - len(points) - 2 - HANDLERS) // 4
    behind = len(points) + 1 + 4 * blocks + 1
    handlers = " ".join(f"{behind + number % HANDLERS}:*" for number in range(count))
    points.append(f"nop, I P |, {handlers}")
    points += ["iload_0, = |, =", "iload_0, = | I, =", "idiv, = | I I, =", "istore_0, = | I, ="] * blocks
    points.append("return, = |")
    points += ["athrow, = | java/lang/Throwable"] * HANDLERS
    return Given(2, points)


def broad(uses, count):
    others = " ".join(["I"] * (count - 2))
    points = [f"new P, I T {others} |", "astore_1, = | P", f"nop, I P {others} |"]
    points += ["aload_1, = |", "getfield P x I, = | P", "istore_0, = | I"] * ((8000 - len(points) - 1) // 3)
    points.append("return, = |")
    return Given(count, points)


def sunk(uses, count):
    points = ["new P, I T |", "astore_1, = | P", "nop, I P |"]
    points += ["nop, = | " + "I " * count + "T"] * 200
    points.append("return, = |")
    return Given(2, points)


SHAPES = {
    "straight": (straight, "ints"),
    "linked": (straight, "objects"),
    "joined": (straight, "jumps"),
    "caught": (straight, "divisions"),
    "nested": (nested, "ints"),
    "looped": (nested, "objects"),
    "thrown": (thrown, "divisions"),
    "broad": (broad, "ints"),
    "sunk": (sunk, "ints"),
}

make, used = SHAPES[sys.argv[1]]
made = make(used, int(sys.argv[2]))
print(FOLDER.format(made.link))
print("class L")
for _ in range(int(sys.argv[3])):
    print(made.question())
