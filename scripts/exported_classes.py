#!/usr/bin/env python3
"""Of the classes of a JDK, a folder for each module, keeps those that class files outside of it can use, cut down to their headers, and
removes the others.

  exported_classes.py FOLDER

Kept are the public classes of the packages that a module exports to all; a nested class that is protected is public to the JVM, and local and
anonymous ones are not. Of a class that is kept, its superclass, its superinterfaces and the classes that its public and protected members
name are kept too: a value of such a type may reach a class file that cannot name it, and verification goes up from its class.
"""
import os
import re
import sys

from class_headers import ClassFile, Reader

CLASS_OF_DESCRIPTOR = re.compile(b"L([^;]+);")
PUBLIC, PROTECTED = 1, 4


def read_class(path):
    with open(path, "rb") as file:
        return ClassFile(file.read())


def exported_packages(module):
    """The packages that a module's descriptor exports to all modules (JVM Specification SE 9 and later, 4.7.25)."""
    read = Reader(module.attributes[b"Module"])
    read.take(6)
    read.take(6 * read.u2())
    packages = set()
    for _ in range(read.u2()):
        package, _ = module.named(read.u2()), read.u2()
        only_to = read.u2()
        read.take(2 * only_to)
        if only_to == 0:
            packages.add(package)
    return packages


def find_classes(folder):
    """The path of each class of a module by its name, in byte order of paths."""
    paths = {}
    for where, folders, names in os.walk(folder):
        folders.sort()
        for name in sorted(names):
            path = os.path.join(where, name)
            if name.endswith(".class"):
                paths[os.path.relpath(path, folder)[:-len(".class")].encode()] = path
    return paths


def used_by(found):
    """The classes that a class brings with it."""
    yield from found.interfaces
    if found.superclass:
        yield found.superclass
    for flags, _, desc in found.fields + found.methods:
        if flags & (PUBLIC | PROTECTED):
            yield from CLASS_OF_DESCRIPTOR.findall(desc)


def usable_classes(paths, packages):
    """The classes that are kept, by name."""
    kept, left = {}, []
    for name, path in paths.items():
        if name.rpartition(b"/")[0] in packages:
            found = read_class(path)
            if found.flags & PUBLIC:
                kept[name] = found
                left.append(found)
    while left:
        for name in used_by(left.pop()):
            if name not in kept and name in paths:
                kept[name] = read_class(paths[name])
                left.append(kept[name])
    return kept


def main(words):
    if len(words) != 1:
        print(__doc__, file=sys.stderr)
        return 2
    paths, packages = {}, set()
    for module in sorted(os.listdir(words[0])):
        folder = os.path.join(words[0], module)
        description = os.path.join(folder, "module-info.class")
        if os.path.isfile(description):
            packages |= exported_packages(read_class(description))
            os.remove(description)
            paths.update(find_classes(folder))
    kept = usable_classes(paths, packages)
    for name, path in paths.items():
        if name in kept:
            with open(path, "wb") as file:
                file.write(kept[name].header())
        else:
            os.remove(path)
    return 0


if __name__ == "__main__":
    sys.exit(main(sys.argv[1:]))
