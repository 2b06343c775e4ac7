#!/usr/bin/env bash
# library.sh LIB JAR..: adds the headers of the classes of jars, of any version up to the JDK's, to a library folder, a folder for
# each jar. A class that the library has already is passed over.
set -eu
if [ $# -lt 2 ]; then
    echo "usage: bash scripts/library.sh LIB JAR.." >&2
    exit 64
fi
if ! command -v python3 >/dev/null; then
    echo "python3 is missing" >&2
    exit 69
fi
exec python3 -B "$(dirname "$0")/class_headers.py" "$@"
