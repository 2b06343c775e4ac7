#!/usr/bin/env bash
# jdk-library.sh [--whole] FOLDER: fills the folder with the class files of the JDK that is on the machine, a folder for each module:
# those that class files outside of the JDK can use, cut down to their headers (exported_classes.py says which; they give the same answers
# in a fraction of the time). With --whole all of its classes, as they are: for class files that name a class which no module exports to all,
# as sun/security/x509/X500Name, or that are the JDK's own. Each is given the version 52.0, with which headers end. Descriptors of modules,
# which are no classes, are left out. Prints why and ends with status 2 where there is no JDK.
set -eu
whole=
if [ "${1-}" = --whole ]; then
    whole=yes
    shift
fi
if [ $# != 1 ]; then
    echo "usage: bash scripts/jdk-library.sh [--whole] FOLDER" >&2
    exit 64
fi
for tool in jimage python3; do
    if ! command -v "$tool" >/dev/null; then
        echo "$tool is missing"
        exit 2
    fi
done
modules=$(dirname "$(readlink -f "$(command -v jimage)")")/../lib/modules
if [ ! -f "$modules" ]; then
    echo "the JDK has no lib/modules"
    exit 2
fi
jimage extract --dir="$1" "$modules"
find "$1" -type f ! -name '*.class' -delete
if [ -z "$whole" ]; then
    python3 -B "$(dirname "$0")/exported_classes.py" "$1"
fi
find "$1" -name module-info.class -delete
find "$1" -type d -empty -delete
if [ -z "$whole" ]; then
    exit
fi
python3 - "$1" <<'PYTHON'
import os
import sys

for folder, _, names in os.walk(sys.argv[1]):
    for name in names:
        with open(os.path.join(folder, name), "r+b") as file:
            file.seek(4)
            file.write(b"\0\0\0\x34")
PYTHON
