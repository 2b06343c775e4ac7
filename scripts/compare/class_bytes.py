"""Class files that are put together directly (JVM Specification SE 8, chapter 4)."""
import struct

OPCODES = {name: code for code, name in enumerate("""nop aconst_null iconst_m1 iconst_0 iconst_1 iconst_2 iconst_3 iconst_4 iconst_5 lconst_0 lconst_1
fconst_0 fconst_1 fconst_2 dconst_0 dconst_1 bipush sipush ldc ldc_w ldc2_w iload lload fload dload aload iload_0 iload_1 iload_2 iload_3 lload_0 lload_1
lload_2 lload_3 fload_0 fload_1 fload_2 fload_3 dload_0 dload_1 dload_2 dload_3 aload_0 aload_1 aload_2 aload_3 iaload laload faload daload aaload baload
caload saload istore lstore fstore dstore astore istore_0 istore_1 istore_2 istore_3 lstore_0 lstore_1 lstore_2 lstore_3 fstore_0 fstore_1 fstore_2
fstore_3 dstore_0 dstore_1 dstore_2 dstore_3 astore_0 astore_1 astore_2 astore_3 iastore lastore fastore dastore aastore bastore castore sastore pop pop2
dup dup_x1 dup_x2 dup2 dup2_x1 dup2_x2 swap iadd ladd fadd dadd isub lsub fsub dsub imul lmul fmul dmul idiv ldiv fdiv ddiv irem lrem frem drem ineg lneg
fneg dneg ishl lshl ishr lshr iushr lushr iand land ior lor ixor lxor iinc i2l i2f i2d l2i l2f l2d f2i f2l f2d d2i d2l d2f i2b i2c i2s lcmp fcmpl fcmpg
dcmpl dcmpg ifeq ifne iflt ifge ifgt ifle if_icmpeq if_icmpne if_icmplt if_icmpge if_icmpgt if_icmple if_acmpeq if_acmpne goto jsr ret tableswitch
lookupswitch ireturn lreturn freturn dreturn areturn return getstatic putstatic getfield putfield invokevirtual invokespecial invokestatic invokeinterface
invokedynamic new newarray anewarray arraylength athrow checkcast instanceof monitorenter monitorexit wide multianewarray ifnull ifnonnull goto_w
jsr_w""".split())}
NEWARRAY = {"boolean": 4, "char": 5, "float": 6, "double": 7, "byte": 8, "short": 9, "int": 10, "long": 11}


class Pool:
    def __init__(self):
        self.out, self.known, self.count = [], {}, 1

    def add(self, data, units=1):
        if data not in self.known:
            self.known[data] = self.count
            self.out.append(data)
            self.count += units
        return self.known[data]

    def text(self, text):
        return self.add(b"\1" + struct.pack(">H", len(text)) + text.encode("ascii"))

    def class_(self, name):
        return self.add(b"\7" + struct.pack(">H", self.text(name)))

    def string(self, text):
        return self.add(b"\x08" + struct.pack(">H", self.text(text)))

    def number(self, kind, value):
        """An Integer, Float, Long or Double: of the floats the bits."""
        tag, form = {"I": (3, ">i"), "F": (4, ">I"), "J": (5, ">q"), "D": (6, ">Q")}[kind]
        return self.add(bytes([tag]) + struct.pack(form, value), 2 if kind in "JD" else 1)

    def member(self, tag, owner, name, descriptor):
        """A Fieldref (9), Methodref (10) or InterfaceMethodref (11)."""
        both = self.add(b"\x0c" + struct.pack(">HH", self.text(name), self.text(descriptor)))
        return self.add(bytes([tag]) + struct.pack(">HH", self.class_(owner), both))


class Code:
    """The code of a method; jumps name labels, at each of which a frame of the given locals and stack stands."""

    def __init__(self, pool, locals_):
        self.pool, self.max_locals = pool, locals_
        self.bytes, self.labels, self.jumps, self.handlers, self.frames = bytearray(), {}, [], [], {}

    def op(self, name, form="", *values):
        self.bytes.append(OPCODES[name])
        self.bytes += struct.pack(">" + form, *values)

    def constant(self, index, is_wide):
        if is_wide:
            self.op("ldc2_w", "H", index)
        elif index < 256:
            self.op("ldc", "B", index)
        else:
            self.op("ldc_w", "H", index)

    def local(self, name, number, is_wide=False):
        """A load or store of a local."""
        self.max_locals = max(self.max_locals, number + (2 if name[0] in "ld" else 1))
        if is_wide or number > 255:
            self.op("wide")
            self.op(name, "H", number)
        else:
            self.op(name, "B", number)

    def call(self, name, owner, member, descriptor, is_interface=False):
        self.op(name, "H", self.pool.member(11 if is_interface else 10, owner, member, descriptor))
        if name == "invokeinterface":
            units = 1 + sum(2 if it in "JD" else 1 for it in parameters(descriptor))
            self.bytes += bytes([units, 0])

    def field(self, name, owner, member, descriptor):
        self.op(name, "H", self.pool.member(9, owner, member, descriptor))

    def label(self, name, frame=None):
        """A place; with a frame where it is jumped to: the types of its locals and its stack."""
        self.labels[name] = len(self.bytes)
        if frame is not None:
            self.frames[len(self.bytes)] = frame

    def jump(self, name, label):
        self.jumps.append((len(self.bytes), len(self.bytes) + 1, ">h", label))
        self.op(name, "h", 0)

    def switch(self, default, low=None, targets=None, keys=None):
        """A tableswitch of targets from a low key, or a lookupswitch of keys with their targets."""
        start = len(self.bytes)
        self.op("tableswitch" if keys is None else "lookupswitch")
        self.bytes += bytes(-len(self.bytes) % 4)
        self.target(start, default)
        if keys is None:
            self.bytes += struct.pack(">ii", low, low + len(targets) - 1)
            for it in targets:
                self.target(start, it)
        else:
            self.bytes += struct.pack(">i", len(keys))
            for key, it in sorted(keys):
                self.bytes += struct.pack(">i", key)
                self.target(start, it)

    def target(self, start, label):
        self.jumps.append((start, len(self.bytes), ">i", label))
        self.bytes += bytes(4)

    def attribute(self, max_stack):
        for start, at, form, label in self.jumps:
            struct.pack_into(form, self.bytes, at, self.labels[label] - start)
        table = b"".join(struct.pack(">HHHH", self.labels[one], self.labels[two], self.labels[to], self.pool.class_(type_) if type_ else 0)
                         for one, two, to, type_ in self.handlers)
        out = struct.pack(">HHI", max_stack, self.max_locals, len(self.bytes)) + bytes(self.bytes)
        out += struct.pack(">H", len(self.handlers)) + table
        if not self.frames:
            return out + b"\0\0"
        frames, before = b"", -1
        for at, (locals_, stack) in sorted(self.frames.items()):
            frames += b"\xff" + struct.pack(">H", at - before - 1) + self.types(locals_) + self.types(stack)
            before = at
        frames = struct.pack(">H", len(self.frames)) + frames
        return out + b"\0\1" + struct.pack(">HI", self.pool.text("StackMapTable"), len(frames)) + frames

    def types(self, types):
        tags = {"I": 1, "F": 2, "D": 3, "J": 4}
        return struct.pack(">H", len(types)) + b"".join(
            bytes([tags[it]]) if it in tags else b"\7" + struct.pack(">H", self.pool.class_(it)) for it in types)


def parameters(descriptor):
    """The first letters of a descriptor's parameters."""
    found, at = "", 1
    while descriptor[at] != ")":
        found += "A" if descriptor[at] in "L[" else descriptor[at]
        while descriptor[at] == "[":
            at += 1
        at = descriptor.index(";", at) + 1 if descriptor[at] == "L" else at + 1
    return found


class ClassBytes:
    def __init__(self, name, superclass="java/lang/Object", interfaces=(), flags=0x21):
        self.name, self.superclass, self.interfaces, self.flags = name, superclass, interfaces, flags
        self.pool, self.fields, self.methods = Pool(), [], []

    def field(self, flags, name, descriptor, constant=None):
        """A field, with the index of its ConstantValue if it has one."""
        value = b"\0\1" + struct.pack(">HIH", self.pool.text("ConstantValue"), 2, constant) if constant else b"\0\0"
        self.fields.append(struct.pack(">HHH", flags, self.pool.text(name), self.pool.text(descriptor)) + value)

    def method(self, flags, name, descriptor, code=None, max_stack=40):
        head = struct.pack(">HHH", flags, self.pool.text(name), self.pool.text(descriptor))
        if code is None:
            self.methods.append(head + b"\0\0")
            return
        content = code.attribute(max_stack)
        self.methods.append(head + b"\0\1" + struct.pack(">HI", self.pool.text("Code"), len(content)) + content)

    def code(self, descriptor, is_static=True):
        return Code(self.pool, sum(2 if it in "JD" else 1 for it in parameters(descriptor)) + (not is_static))

    def constructor(self, flags=1):
        code = self.code("()V", False)
        code.op("aload_0")
        code.call("invokespecial", self.superclass, "<init>", "()V")
        code.op("return")
        self.method(flags, "<init>", "()V", code)

    def bytes(self):
        own, above = self.pool.class_(self.name), self.pool.class_(self.superclass)
        interfaces = [self.pool.class_(it) for it in self.interfaces]
        tail = struct.pack(">HHHH", self.flags, own, above, len(interfaces)) + b"".join(struct.pack(">H", it) for it in interfaces)
        for members in (self.fields, self.methods):
            tail += struct.pack(">H", len(members)) + b"".join(members)
        head = b"\xca\xfe\xba\xbe\0\0\0\x34" + struct.pack(">H", self.pool.count)
        return head + b"".join(self.pool.out) + tail + b"\0\0"
