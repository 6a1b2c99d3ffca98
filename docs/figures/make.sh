#!/bin/bash
# Makes the tables and pictures of this folder, and puts the tables into README.md: the histories of examples/real by count width, on
# 4,096 blocks or 16,384, and four of the invented ones, on 1,024. Needs libhuwekapo.so (`bash install.sh`) and, for the pictures, matplotlib.
set -eu
cd "$(dirname "$0")/../.."
export PYTHONPATH=$PWD/python
# The system's Python, which sees the system's packages.
python=${PYTHON:-$(PATH=/usr/bin:$PATH command -v python3)}
# The indented lines that follow README's line for a table are exchanged for it.
put_table() {
    awk -v line="<!-- docs/figures/$1.txt -->" -v table="docs/figures/$1.txt" '
        $0 == line { print; print ""; while ((getline row < table) > 0) print "    " row; print ""; passing = 1; next }
        passing && (/^    / || /^$/) { next }
        { passing = 0; print }
    ' README.md >target/README.md
    cp target/README.md README.md
}

# NAME HISTORY BLOCKS
figures() {
    "$python" -m huwekapo widths "$2" --blocks "$3" >docs/figures/"$1".txt
    put_table "$1"
    "$python" -m huwekapo plot "$2" --blocks "$3" --step 500 --title "$1" -o docs/figures/"$1".svg
}
figures jlex examples/real/jlex.history 4096
figures jdepend examples/real/jdepend.history 4096
figures htmlparser examples/real/htmlparser.history 16384
for name in calls caches lists trees; do
    "$python" -m huwekapo example "$name" --records 100000 -o target/"$name".history
    figures "$name" target/"$name".history 1024
done
