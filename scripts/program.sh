# Where the program is. Sourced by scripts: sets pea to PEA, else to bin/pea, and ends the script with status 69 where that is not there.
pea=${PEA:-$(cd "$(dirname "${BASH_SOURCE[0]}")/.." && pwd)/bin/pea}
if [ ! -x "$pea" ]; then
    {
        echo "$pea is not there"
        echo "  make run proves and builds bin/pea; make try builds bin/pea-unproved in a few minutes, without proofs,"
        echo "  which PEA=bin/pea-unproved before this command takes"
    } >&2
    exit 69
fi
