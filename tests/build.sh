#!/usr/bin/env bash
# tests/build.sh NAME..: proves and builds these, and lays them where the tests and ./run look for them: of pithread and driver the archives
# target/staticlib/libpithread.a and target/staticlib/libdriver.a, of listing the program target/bin/listing. An archive is made of the thin
# crate behind its name, pithread_c or driver_c.
set -euo pipefail
cd "$(dirname "$0")/.."

# in_crate NAME COMMAND..: in the crate's folder.
in_crate() {
    (cd "crates/$1" && "${@:2}")
}

for name; do
    case $name in
    pithread | driver)
        in_crate "${name}_c" rt lib
        mkdir -p target/staticlib
        cp "crates/${name}_c/out/lib${name}_c.a" "target/staticlib/lib$name.a"
        ;;
    listing)
        # The kit builds a program where it is to run: of no input it prints a listing, which nobody needs.
        in_crate listing rt run </dev/null >/dev/null
        mkdir -p target/bin
        cp crates/listing/out/listing target/bin/listing
        ;;
    *)
        echo "tests/build.sh: $name is none of pithread, driver and listing" >&2
        exit 2
        ;;
    esac
done
