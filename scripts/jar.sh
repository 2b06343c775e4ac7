#!/usr/bin/env bash
# jar.sh unpacks a jar, runs the program on its class files and other entries, and of `optimise` packs what was written:
#
#   jar.sh verify IN.jar --lib LIB
#   jar.sh plan IN.jar --lib LIB
#   jar.sh run IN.jar SCRIPT --lib LIB [--steps N]
#   jar.sh optimise IN.jar OUT.jar --lib LIB
#
# OUT.jar has its entries in the order of IN.jar with its compression, those that are not rewritten byte for byte, and its empty folders.
# module-info.class, META-INF/versions and, where a class changed, signatures are left out, each with a note. The status is the program's;
# those of the script itself are 64 (its words), 65 (IN.jar is no jar that can be read), 69 (something is missing) and 73 (OUT.jar cannot be
# written). PEA=FILE takes another program than bin/pea.
set -eu
here=$(cd "$(dirname "$0")" && pwd)
if [ $# = 0 ]; then
    sed -n 's/^#   /usage: bash scripts\//p' "$0" >&2
    exit 64
fi
if ! command -v python3 >/dev/null; then
    echo "python3 is missing" >&2
    exit 69
fi
source "$here/program.sh"
PEA=$pea exec python3 -B "$here/jar.py" "$@"
