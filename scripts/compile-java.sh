#!/usr/bin/env bash
# compile-java.sh RELEASE FOLDER: compiles examples/java/RELEASE into the folder, with all that javac writes for debuggers.
# Prints why and ends with status 2 where there is no javac that knows the release.
set -u
if [ $# != 2 ]; then
    echo "usage: bash scripts/compile-java.sh RELEASE FOLDER" >&2
    exit 64
fi
release=$1
folder=$(realpath "$2")
cd "$(dirname "$0")/../examples/java/$release" || exit 1
if ! command -v javac >/dev/null; then
    echo "javac is missing"
    exit 2
fi
flags=(-J-Duser.language=en -encoding UTF-8 -proc:none -Xlint:-options -g -parameters)
if ! said=$(javac --release "$release" "${flags[@]}" -d "$folder" ./*/*.java 2>&1); then
    case $said in
        *"release version $release not supported"* | *"invalid flag: --release"*)
            echo "this javac does not compile for it"
            exit 2
            ;;
    esac
    printf '%s\n' "$said"
    exit 1
fi
