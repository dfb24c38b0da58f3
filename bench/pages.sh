#!/bin/sh
# Takes what pages can show of times: a table for docs/MANY_MACHINES.md and a picture for docs/RESULTS.md.
# Usage: bench/pages.sh FOLDER, from the repository's folder, behind `make`, on four processors that do nothing else.
# Leaves in FOLDER the table split.md and, of 171 formulas, the seconds solved.csv, the table solved.md and the picture
# solved.svg. It takes some minutes. DepQBF is beside qbf where it is installed. PYTHON in the environment is the
# Python that draws, as one that has matplotlib; python3 without it.
set -eu

if [ $# -ne 1 ]; then
    echo "usage: $0 FOLDER" >&2
    exit 2
fi
folder=$1
mkdir -p "$folder"
python3 bench/split.py 4 10 > "$folder/split.md"
python3 bench/families.py "$folder/formulas"
python3 bench/families.py "$folder/formulas" large
python3 bench/compare.py --csv "$folder/solved.csv" "$folder/formulas" 4 > "$folder/solved.md"
"${PYTHON:-python3}" bench/plot.py "$folder/solved.csv" > "$folder/solved.svg"
