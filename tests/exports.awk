# awk -f tests/exports.awk crates/NAME/src/lib.rt crates/NAME_c/src/lib.rt: holds what C calls to the library behind it. Each export has the
# parameters, the result and the clauses of the function of its name in the library, word for word, and its body is the call of that one with
# the same arguments; and each function of the library whose name begins with NAME_ is exported. What differs is named. Clauses mean the same
# in both, since both files import the same names from the same places.

FNR == 1 { file++ }

# An import of definitions: the path before the names.
/^ghost use / {
    path = $3
    sub(/\.\{.*/, "", path)
    names = $0
    sub(/^[^{]*\{/, "", names)
    sub(/\};$/, "", names)
    n = split(names, part, /, /)
    for (i = 1; i <= n; i++) {
        last = part[i]
        sub(/.* as /, "", last)
        origin[file, last] = path " " part[i]
        if (file == 2) imported[last]
    }
}

/^#\[unsafe\(no_mangle\)\]$/ { exported = 1 }

/^pub (extern "C" )?fn / {
    name = $0
    sub(/^pub (extern "C" )?fn /, "", name)
    sub(/[(<].*/, "", name)
    head = ""
    inside = "head"
}

inside == "head" && /^\{$/ {
    # The layout of the parameters goes by their length.
    gsub(/ +/, " ", head)
    gsub(/\( /, "(", head)
    gsub(/, \)/, ")", head)
    heads[file, name] = head
    inside = "body"
    body = ""
    next
}

inside == "head" {
    line = $0
    sub(/^pub extern "C" fn /, "pub fn ", line)
    head = head " " line
    next
}

inside == "body" && /^\}$/ {
    if (file == 2) {
        if (exported) exports[++count] = name
        else print name " is no export"
        bodies[name] = body
    }
    inside = ""
    exported = 0
    next
}

inside == "body" { body = body $0 }

END {
    library = FILENAME
    sub(/_c\/src\/lib\.rt$/, "", library)
    sub(/.*\//, "", library)
    for (i = 1; i <= count; i++) {
        name = exports[i]
        if (!((1, name) in heads)) {
            print name " is not in " library
            some = 1
            continue
        }
        if (heads[1, name] != heads[2, name]) {
            print name " has other parameters or clauses than in " library
            some = 1
        }
        # The names of the parameters, in their order.
        given = heads[1, name]
        sub(/^[^(]*\(/, "", given)
        sub(/\) ?(->|ensures|requires).*/, "", given)
        n = split(given, part, /,/)
        call = ""
        for (k = 1; k <= n; k++) if (match(part[k], /[a-z_]+:/)) call = call (call ? ", " : "") substr(part[k], RSTART, RLENGTH - 1)
        if (bodies[name] != "    " library "::" name "(" call ")") {
            print name " does not just call " library "::" name
            some = 1
        }
    }
    for (last in imported) if (origin[1, last] != origin[2, last]) {
        print last " is imported from elsewhere than in " library
        some = 1
    }
    for (key in heads) {
        split(key, at, SUBSEP)
        if (at[1] == 1 && index(at[2], library "_") == 1 && !((2, at[2]) in heads)) {
            print at[2] " is not exported"
            some = 1
        }
    }
    if (!count) print "no export is there"
    exit some || !count
}
