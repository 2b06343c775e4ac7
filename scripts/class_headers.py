#!/usr/bin/env python3
"""Class files cut down to their headers, as a library needs them: access flags, names, superclass, interfaces, and the flags, names and
descriptors of members. Code and attributes go, the constant pool keeps what is named, and the version becomes 52.0, with which the
headers that `pea` reads end.

  class_headers.py FOLDER JAR..   adds the classes of jars, a folder for each jar, but for those that the folder has
"""
import os
import struct
import sys
import zipfile

# The bytes behind the tag of a constant (JVM Specification SE 8 and later, 4.4), but for Utf8.
SIZES = {3: 4, 4: 4, 5: 8, 6: 8, 7: 2, 8: 2, 9: 4, 10: 4, 11: 4, 12: 4, 15: 3, 16: 2, 17: 4, 18: 4, 19: 2, 20: 2}
# The tags of Class, Module and Package, which are each an index of a Utf8.
NAMED = (7, 19, 20)


class Reader:
    def __init__(self, data):
        self.data, self.at = data, 0

    def take(self, count):
        part = self.data[self.at:self.at + count]
        if len(part) < count:
            raise ValueError("the file is too short")
        self.at += count
        return part

    def u2(self):
        return struct.unpack(">H", self.take(2))[0]

    def u4(self):
        return struct.unpack(">I", self.take(4))[0]

    def attributes(self, texts):
        """A table of attributes, by name."""
        found = {}
        for _ in range(self.u2()):
            name = texts[self.u2()]
            found[name] = self.take(self.u4())
        return found


class Pool:
    """The constants of the new pool: texts and classes, each once."""

    def __init__(self):
        self.entries, self.known = [], {}

    def add(self, entry):
        if entry not in self.known:
            self.entries.append(entry)
            self.known[entry] = len(self.entries)
        return self.known[entry]

    def text(self, text):
        return self.add(b"\x01" + struct.pack(">H", len(text)) + text)

    def named_class(self, text):
        return self.add(b"\x07" + struct.pack(">H", self.text(text)))


class ClassFile:
    """What a class file says of its class, and its attributes as bytes; names are bytes too."""

    def __init__(self, data):
        read = Reader(data)
        if read.take(4) != b"\xca\xfe\xba\xbe":
            raise ValueError("it does not begin as a class file")
        read.take(4)
        self.read_pool(read)
        self.flags, self.name = read.u2(), self.named(read.u2())
        above = read.u2()
        self.superclass = self.named(above) if above else None
        self.interfaces = [self.named(read.u2()) for _ in range(read.u2())]
        self.fields, self.methods = self.read_members(read), self.read_members(read)
        self.attributes = read.attributes(self.texts)

    def read_pool(self, read):
        """The texts, and which text a class, module or package is named by."""
        self.texts, self.names = {}, {}
        index, count = 1, read.u2()
        while index < count:
            tag = read.take(1)[0]
            if tag == 1:
                self.texts[index] = read.take(read.u2())
            elif tag in SIZES:
                body = read.take(SIZES[tag])
                if tag in NAMED:
                    self.names[index] = struct.unpack(">H", body)[0]
            else:
                raise ValueError(f"a constant has the tag {tag}")
            index += 2 if tag in (5, 6) else 1

    def named(self, index):
        return self.texts[self.names[index]]

    def read_members(self, read):
        """The flags, name and descriptor of each field or method."""
        members = []
        for _ in range(read.u2()):
            members.append((read.u2(), self.texts[read.u2()], self.texts[read.u2()]))
            read.attributes(self.texts)
        return members

    def header(self):
        """The header, as a class file."""
        pool = Pool()
        own = pool.named_class(self.name)
        above = pool.named_class(self.superclass) if self.superclass else 0
        out = [struct.pack(">HHHH", self.flags, own, above, len(self.interfaces))]
        out += [struct.pack(">H", pool.named_class(it)) for it in self.interfaces]
        for members in (self.fields, self.methods):
            out.append(struct.pack(">H", len(members)))
            out += [struct.pack(">HHHH", flags, pool.text(name), pool.text(desc), 0) for flags, name, desc in members]
        out.append(b"\0\0")
        head = b"\xca\xfe\xba\xbe\0\0\0\x34" + struct.pack(">H", len(pool.entries) + 1)
        return head + b"".join(pool.entries) + b"".join(out)


def class_files(folder):
    for where, folders, names in os.walk(folder):
        folders.sort()
        for name in sorted(names):
            if name.endswith(".class"):
                yield os.path.join(where, name)


def is_left_out(name):
    return not name.endswith(".class") or name.endswith("module-info.class") or name.startswith("META-INF/")


def add_jars(folder, jars):
    there = set()
    for path in class_files(folder):
        with open(path, "rb") as file:
            there.add(ClassFile(file.read()).name)
    for jar in jars:
        into = os.path.join(folder, os.path.basename(jar))
        added = passed = 0
        with zipfile.ZipFile(jar) as entries:
            for entry in entries.namelist():
                if is_left_out(entry):
                    continue
                try:
                    found = ClassFile(entries.read(entry))
                except (KeyError, ValueError) as fault:
                    print(f"{jar}: {entry} is left out: {fault}", file=sys.stderr)
                    continue
                if found.name in there:
                    passed += 1
                    continue
                there.add(found.name)
                path = os.path.join(into, entry)
                os.makedirs(os.path.dirname(path), exist_ok=True)
                with open(path, "wb") as file:
                    file.write(found.header())
                added += 1
        print(f"{jar}: {added} classes" + (f", and {passed} that the library has already" if passed else ""))


def main(words):
    if len(words) < 2:
        print(__doc__, file=sys.stderr)
        return 2
    add_jars(words[0], words[1:])
    return 0


if __name__ == "__main__":
    sys.exit(main(sys.argv[1:]))
