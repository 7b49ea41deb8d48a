#!/usr/bin/env bash
# Shows, on a repository with one small crate, that a file which belongs to no listed crate is found: a whole crate that
# crates.txt leaves out, and single files. And that no function of ours is left without a caller but those that are kept.
set -euo pipefail
root=$(cd "$(dirname "$0")/.." && pwd)
source "$root/tests/counted.sh"

scratch=$(mktemp -d)
log=$scratch/log
trap 'rm -rf "$scratch"' EXIT

passes() {
    (cd "$scratch" && rt ci) >"$log" 2>&1
}

# The gate has to fail, and to name this file.
refused() {
    local file=$1
    if passes; then
        return 1
    fi
    grep -q "^rt: no check reads .*$file: " "$log"
}

echo 'one:' >"$scratch/crates.txt"
mkdir -p "$scratch/crates/one/src"
cat >"$scratch/crates/one/src/lib.rt" <<'SOURCE'
// A number.
#![tactic(auto)]

ghost use Rattle.std.specs.Prelude.{◌≡◌};

pub fn seven() -> u32
    ensures { result ≡ 7 }
{
    7
}
SOURCE

check "the crate passes as it is" passes

mkdir "$scratch/crates/unlisted"
cp -r "$scratch/crates/one/src" "$scratch/crates/unlisted"
check "a crate that is not listed is refused" refused crates/unlisted/src/lib.rt
rm -r "$scratch/crates/unlisted"

for file in loose.rt crates/loose.rt crates/one/loose.rt loose.antt crates/loose.antt crates/one/loose.antt; do
    : >"$scratch/$file"
    check "the loose file $file is refused" refused "$file"
    rm "$scratch/$file"
done

check "the crate passes again" passes

# What has no caller and stays: a line for each, its name and why.
kept='
table::branch_in      was promised of any bytes to whoever calls the crate; with an index there is Table::branch_in
table::Table::index   gives back the index that loader::accept was lent, which it promised to be that of the table
'

# uncalled FOLDER [NAME..]: no function of its crates is left that neither an exported function nor a program, nor one of those that are kept,
# comes to call; those that are left are named.
uncalled() {
    local folder=$1
    shift
    (
        cd "$folder"
        shopt -s globstar
        awk -v kept="$*" -f "$root/tests/uncalled.awk" crates.txt crates/*/src/**/*.rt
    ) >"$log"
    local status=$?
    cat "$log"
    return "$status"
}

# The small crate's function and the method of its type have no caller, and have to be named; by way of another one that is
# exported they have.
named() {
    ! uncalled "$scratch" && grep -qx "$1" "$log"
}

check "a function without a caller is named" named one::seven
cat >>"$scratch/crates/one/src/lib.rt" <<'SOURCE'

struct Eight {}

impl Eight {
    fn eight(&self) -> u32 {
        8
    }
}
SOURCE
check "a method without a caller is named" named one::Eight::eight
cat >>"$scratch/crates/one/src/lib.rt" <<'SOURCE'

fn handed_on() -> u32 {
    seven() + Eight {}.eight()
}

#[unsafe(no_mangle)]
pub extern "C" fn exported() -> u32 {
    handed_on()
}
SOURCE
check "it has a caller behind an exported function" uncalled "$scratch"

# Two crates in which functions have one name and are told apart by their type and their module. `size` says 0 for the branches, and so the
# free `count` has lost its caller, as it would if a look-up of the table were left out.
alike=$scratch/alike
mkdir -p "$alike/crates/low/src" "$alike/crates/high/src"
printf 'low:\nhigh: low\n' >"$alike/crates.txt"
cat >"$alike/crates/low/src/lib.rt" <<'SOURCE'
pub mod inner;

pub fn count(bytes: &[u8]) -> u32 {
    bytes.len() as u32
}

pub fn max(a: u32) -> u32 {
    a
}

pub fn size(bytes: &[u8], branches: bool) -> u32
    ensures { result ≡ max(count(bytes)) }
{
    if branches { 0 } else { first(bytes) }
}

pub fn first(bytes: &[u8]) -> u32 {
    bytes[0] as u32
}

pub struct Table<'a, T> {
    items: &'a [T],
}

impl<
    'a,
    T: Copy,
> Table<'a, T> {
    pub fn new(items: &'a [T]) -> Self {
        Self::made(items)
    }

    fn made(items: &'a [T]) -> Self {
        Table { items }
    }

    pub fn count(&self) -> u32 {
        self.half() + inner::seek(3)
    }

    pub fn first(&self) -> u32 {
        0
    }

    fn half(
        &self,
    ) -> u32 {
        7.max(self.items.len() as u32)
    }
}

pub trait Shape {
    fn area(&self) -> u32
        ensures { 0 ≤ result };

    fn twice(&self) -> u32 {
        self.area() + self.area()
    }

    fn thrice(&self) -> u32 {
        3
    }
}

impl<'a, T: Copy> Shape for Table<'a, T> {
    fn area(&self) -> u32 {
        of_table()
    }
}

impl<'a, T: Copy> From<&'a [T]> for Table<'a, T> {
    fn from(items: &'a [T]) -> Self {
        Table { items }
    }
}

fn of_table() -> u32 {
    1
}
SOURCE
cat >"$alike/crates/low/src/inner.rt" <<'SOURCE'
use super::{first, size as extent};

pub fn seek(n: u32) -> u32 {
    extent(&[], n == 0)
}

pub fn count(n: u32) -> u32 {
    n
}
SOURCE
cat >"$alike/crates/high/src/lib.rt" <<'SOURCE'
pub use low::{
    Shape,
    inner::{self, seek},
};
use low::Table;

fn seek_twice<S: Shape>(shape: &S) -> u32 {
    crate::seek(2) + S::twice(shape)
}

// seen() is no call, and neither is "seen()".
#[unsafe(no_mangle)]
pub extern "C" fn exported(n: u32) -> u32 {
    let table = Table::<u8>::new(&[]);
    seek_twice(&table) + table.count()
}

fn seen() -> u32 {
    1
}
SOURCE

# alike_named NAME..: just these are named.
alike_named() {
    ! uncalled "$alike" "${keep[@]}" && diff <(printf '%s\n' "$@" | sort) <(sort "$log")
}

keep=()
left=(high::seen low::inner::count low::max low::Table::first low::Shape::thrice)
check "functions of one name are told apart, and those without a caller named" alike_named "${left[@]}" low::count
sed -i 's/if branches { 0 }/if branches { count(bytes) }/' "$alike/crates/low/src/lib.rt"
check "a free function with its caller is not named" alike_named "${left[@]}"
keep=(low::max low::Table::first)
check "what is kept is not named" alike_named high::seen low::inner::count low::Shape::thrice
keep=(low::count low::gone)
check "what is kept is told if it is called or gone" alike_named "${left[@]}" 'kept, and called: low::count' 'kept, and not there: low::gone'

mapfile -t keep < <(sed -E '/^$/d; s/ .*//' <<<"$kept")
check "each function of the engine is called, or kept for a reason" uncalled "$root" "${keep[@]}"
close_checks
