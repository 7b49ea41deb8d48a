#!/usr/bin/env bash
# Draws docs/architecture.svg from crates.txt: a box for each crate, an arrow to each that it uses, without those that
# other arrows imply. Needs Graphviz (dot and tred). tests/documents.sh holds the picture to crates.txt.
set -euo pipefail
cd "$(dirname "$0")/.."

# Yellow is what a reader must believe first, blue has code, green has theorems alone.
colour() {
    if [ "$1" = rules ]; then
        echo '#fdf3d0'
    elif grep -qsE '^(pub )?(extern "C" )?fn ' "crates/$1/src/lib.rt" "crates/$1/src/main.rt"; then
        echo '#e3eefc'
    else
        echo '#e6f4e4'
    fi
}

boxes() {
    local crate
    sed -nE 's/^([a-z_]+)( staticlib)?:.*/\1/p' crates.txt | while read -r crate; do
        echo "$crate [fillcolor=\"$(colour "$crate")\"];"
    done
}

# The kit's libraries have no box.
arrows() {
    awk -F: '!/^#/ { sub(/ .*/, "", $1); n = split($2, uses, " "); for (i = 1; i <= n; i++) print uses[i], $1 }' crates.txt |
        while read -r used user; do
            [ ! -d "crates/$used" ] || echo "$user -> $used;"
        done
}

{
    echo 'digraph crates {'
    echo 'ranksep=0.35; nodesep=0.22; bgcolor="white";'
    echo 'node [shape=box, style="filled,rounded", fontname="DejaVu Sans", fontsize=13, height=0.34, margin="0.09,0.04"];'
    echo 'edge [arrowsize=0.6, color="#555555"];'
    boxes
    arrows
    echo '}'
} | tred | dot -Tsvg >docs/architecture.svg
