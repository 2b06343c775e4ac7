#!/usr/bin/env python3
"""library.py CLASSES LIB: the library of the generated folders: the headers of the JDK's classes that they name, with those above, and of the
classes library/L, X and E of CLASSES."""
import os
import subprocess
import sys
import tempfile

sys.path.insert(0, os.path.join(os.path.dirname(os.path.abspath(__file__)), ".."))
from class_headers import ClassFile

NAMED = """Object String Class Throwable Exception RuntimeException Error ArithmeticException NullPointerException ArrayIndexOutOfBoundsException
ArrayStoreException NegativeArraySizeException ClassCastException IllegalMonitorStateException AbstractMethodError IllegalAccessError
IncompatibleClassChangeError Cloneable invoke/MethodHandle invoke/MethodType""".split()


def modules():
    jimage = subprocess.run(["which", "jimage"], capture_output=True, text=True, check=True).stdout.strip()
    return os.path.join(os.path.dirname(os.path.realpath(jimage)), "..", "lib", "modules")


def main(classes, lib):
    with tempfile.TemporaryDirectory() as jdk:
        subprocess.run(["jimage", "extract", f"--dir={jdk}", r"--include=regex:/java\.base/java/(lang|io)/.*", modules()], check=True)
        sources = [os.path.join(jdk, "java.base"), classes]
        wanted = [f"java/lang/{name}" for name in NAMED] + ["java/io/Serializable", "library/L", "library/X", "library/E"]
        added = set()
        while wanted:
            name = wanted.pop()
            if name in added:
                continue
            added.add(name)
            path = next(it for it in (os.path.join(source, name + ".class") for source in sources) if os.path.exists(it))
            with open(path, "rb") as file:
                found = ClassFile(file.read())
            wanted += [it.decode() for it in [found.superclass, *found.interfaces] if it]
            path = os.path.join(lib, name + ".class")
            os.makedirs(os.path.dirname(path), exist_ok=True)
            with open(path, "wb") as file:
                file.write(found.header())


if __name__ == "__main__":
    main(*sys.argv[1:])
