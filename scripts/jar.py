#!/usr/bin/env python3
"""Runs the program on a jar: see jar.sh."""
import os
import subprocess
import sys
import tempfile
import zipfile

USAGE, NO_JAR, NOT_WRITTEN = 64, 65, 73

# The words behind each command.
WORDS = {"verify": ["IN.jar"], "plan": ["IN.jar"], "run": ["IN.jar", "SCRIPT"], "optimise": ["IN.jar", "OUT.jar"]}


class Stop(Exception):
    """A status of the script itself, and why."""

    def __init__(self, status, why):
        super().__init__(why)
        self.status = status


def is_left_out(name):
    return name.rsplit("/", 1)[-1] == "module-info.class" or name.startswith("META-INF/versions/")


def is_signature(name):
    return name.startswith("META-INF/") and name.count("/") == 1 and name.upper().endswith((".SF", ".RSA", ".DSA", ".EC"))


def unpack(jar, folder):
    for entry in jar.infolist():
        if entry.is_dir() or is_left_out(entry.filename):
            continue
        path = os.path.join(folder, entry.filename)
        if os.path.isabs(entry.filename) or ".." in entry.filename.split("/"):
            raise Stop(NO_JAR, f"the entry {entry.filename} is no name of a file")
        os.makedirs(os.path.dirname(path), exist_ok=True)
        with open(path, "wb") as file:
            file.write(jar.read(entry))


def note(text):
    print(f"note: {text}", file=sys.stderr)


def pack(jar, folder, to):
    """Writes the jar again, with the files that the folder has for its entries."""
    written = {}
    for entry in jar.infolist():
        if not entry.is_dir() and not is_left_out(entry.filename):
            with open(os.path.join(folder, entry.filename), "rb") as file:
                written[entry.filename] = file.read()
    changed = any(jar.read(name) != data for name, data in written.items())
    with zipfile.ZipFile(to, "w") as out:
        for entry in jar.infolist():
            if is_left_out(entry.filename):
                note(f"{entry.filename} is left out")
            elif changed and is_signature(entry.filename):
                note(f"{entry.filename} is left out, since it signs what was rewritten")
            elif entry.is_dir():
                out.writestr(entry, b"")
            else:
                out.writestr(entry, written[entry.filename], entry.compress_type)


def arguments(words):
    """The command, its words by their names, and its options as the program takes them."""
    command = words[0] if words else ""
    if command not in WORDS:
        raise Stop(USAGE, f"'{command}' is no command; expected is {', '.join(WORDS)}")
    plain, options, rest = [], [], list(words[1:])
    while rest:
        word = rest.pop(0)
        if word in ("--lib", "--steps") and rest:
            options += [word, rest.pop(0)]
        elif word.startswith("-"):
            options.append(word)
        else:
            plain.append(word)
    names = WORDS[command]
    if len(plain) != len(names):
        raise Stop(USAGE, f"usage: jar.sh {command} {' '.join(names)} --lib LIB{' [--steps N]' if command == 'run' else ''}")
    return command, dict(zip(names, plain)), options


def run(command, named, options):
    jar_path, out_path = named["IN.jar"], named.get("OUT.jar")
    if out_path and os.path.exists(out_path) and os.path.samefile(jar_path, out_path):
        raise Stop(USAGE, f"OUT.jar is IN.jar: {out_path} and {jar_path} are one file")
    with tempfile.TemporaryDirectory() as room, zipfile.ZipFile(jar_path) as jar:
        folder, written = os.path.join(room, "in"), os.path.join(room, "out")
        os.mkdir(folder)
        unpack(jar, folder)
        words = [folder]
        if command == "run":
            words.append(named["SCRIPT"])
        if command == "optimise":
            os.mkdir(written)
            words.append(written)
        status = subprocess.run([os.environ["PEA"], command, *words, *options], check=False).returncode
        if command != "optimise":
            for entry in jar.infolist():
                if is_left_out(entry.filename):
                    note(f"{entry.filename} is left out")
        elif status == 0:
            try:
                pack(jar, written, out_path)
            except OSError as error:
                raise Stop(NOT_WRITTEN, f"{out_path} cannot be written: {error}") from error
        return status if status >= 0 else 128 - status


def main(words):
    try:
        return run(*arguments(words))
    except Stop as stop:
        print(f"jar.sh: {stop}", file=sys.stderr)
        return stop.status
    except (OSError, zipfile.BadZipFile, RuntimeError) as error:
        print(f"jar.sh: the jar cannot be read: {error}", file=sys.stderr)
        return NO_JAR


if __name__ == "__main__":
    sys.exit(main(sys.argv[1:]))
