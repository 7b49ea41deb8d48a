# shellcheck shell=bash
# To be sourced, at the root of the repository: copies of the crates in which an edit is tried, outside the checkout.

# copy_crates FOLDER: the crates as they are, without their must-fail edits, and the libraries that have been built of them, so that only what
# is changed is proved anew.
copy_crates() {
    local crate part
    mkdir -p "$1/crates"
    cp crates.txt "$1"
    for crate in crates/*; do
        mkdir -p "$1/$crate"
        for part in src specs proofs; do
            [ ! -d "$crate/$part" ] || cp -r "$crate/$part" "$1/$crate"
        done
        if [ -d "$crate/out/rlib" ]; then
            mkdir "$1/$crate/out"
            cp -r "$crate/out/rlib" "$1/$crate/out"
        fi
    done
}

# replace FILE OLD NEW: puts one text into the place of another, which has to stand in the file once. The file is written anew, so that a
# hard link of it stays as it was.
replace() {
    OLD=$2 NEW=$3 awk '
        { text = text $0 "\n" }
        END {
            old = ENVIRON["OLD"]; new = ENVIRON["NEW"]
            at = index(text, old)
            rest = substr(text, at + length(old))
            if (!at || index(rest, old)) exit 1
            printf "%s%s%s", substr(text, 1, at - 1), new, rest
        }' "$1" >"$1.new" || {
        rm "$1.new"
        echo "not there, or not once, in $1: $2"
        return 1
    }
    mv "$1.new" "$1"
}

# apply_edit EDIT FOLDER: changes the crate in the folder as `rt ci` does for a must-fail edit.
apply_edit() {
    local line file='' old=''
    while IFS= read -r line || [ -n "$line" ]; do
        case $line in
        'file: '*) file=${line#file: } ;;
        'old: '*) old=${line#old: } ;;
        'new:'*)
            line=${line#new:}
            replace "$2/$file" "$old" "${line# }" || return 1
            ;;
        esac
    done <"$1"
}
