#!/usr/bin/env bash
# build.sh NAME [MORE..]: compiles NAME.c and each MORE.c with the archive, to target/c/NAME. The
# sources are in this folder or in examples.
# The archive's folder is the value of PITHREAD_LIB; without it, target/staticlib.
set -euo pipefail
root=$(cd "$(dirname "$0")/../.." && pwd)
sources=()
for name in "$@"; do
    source=$root/tests/c/$name.c
    [ -e "$source" ] || source=$root/examples/$name.c
    sources+=("$source")
done
mkdir -p "$root/target/c"
gcc -std=c11 -O2 -Wall -Wextra -Werror -pedantic -I "$root/include" -o "$root/target/c/$1" \
    "${sources[@]}" "${PITHREAD_LIB:-$root/target/staticlib}/libpithread.a"
