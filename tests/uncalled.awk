# awk [-v kept='NAME ..'] -f tests/uncalled.awk crates.txt crates/*/src/*.rt: names each function that neither an exported function nor a
# program nor one of those in `kept` comes to call: crate::name, crate::module::name or crate::Type::name. Of `kept` it tells which
# are not there, and which have a caller without being kept.
#
# A name in front of a bracket is a call, and so is a path that is handed on. A path is followed from the module in which it stands, by what `use`
# brings in there: `x(` calls a free function and no method. What stands before a dot is not known but for `self`, so that `.x(` calls every
# method x of a type that the crate can have, though it may be one of the library's, such as `.max(`. A path that comes to none of our functions,
# such as one from a type parameter, calls every x of our traits. What a trait of the library asks for is called by the library. What is handed
# on by its bare name, or brought in by a star, is not seen to be called. The sources have to be laid out as `rt fmt` lays them out.

# can_have(USER, CRATE): whether one crate uses another, itself or by way of others.
function can_have(user, crate,    used, n, i) {
    if (user == crate) return 1
    if (!((user, crate) in had)) {
        had[user, crate] = 0
        n = split(uses[user], used, " ")
        for (i = 1; i <= n && !had[user, crate]; i++) had[user, crate] = can_have(used[i], crate)
    }
    return had[user, crate]
}

function first_of(path) {
    sub(/::.*/, "", path)
    return path
}

function last_of(path) {
    sub(/.*::/, "", path)
    return path
}

function above(path) {
    sub(/::[^:]*$/, "", path)
    return path
}

# full(PATH, HERE): a path that is written in the module HERE, from its crate on.
function full(path, here,    part, n, i, to) {
    n = split(path, part, "::")
    if (part[1] == "crate") to = first_of(here)
    else if (part[1] == "self") to = here
    else if (part[1] == "super") to = above(here)
    else if (n > 1 && part[1] in uses && !((here "::" part[1]) in modules)) to = part[1]
    else to = meant(here "::" part[1], n > 1)
    for (i = 2; i <= n; i++) to = part[i] == "super" ? above(to) : meant(to "::" part[i], n > i)
    return to
}

# meant(NAME, LEADS_ON): what `use` has brought in under a name, or that name itself. One that leads on is a module's, if there is one.
function meant(name, leads_on) {
    if (!(name in brought) || leads_on && name in modules) return name
    return full(brought[name], above(name))
}

# bring(LIST, FROM): `use` brings what a list names behind the path FROM into the module.
function bring(list, from,    i, c, depth, item) {
    for (i = 1; i <= length(list) + 1; i++) {
        c = substr(list, i, 1)
        depth += (c == "{") - (c == "}")
        if (c == "" || c == "," && depth == 0) {
            bring_one(item, from)
            item = ""
        } else item = item c
    }
}

function bring_one(item, from,    name, brace) {
    gsub(/^ +| +$/, "", item)
    brace = index(item, "{")
    if (brace) bring(substr(item, brace + 1, length(item) - brace - 1), from substr(item, 1, brace - 1))
    else if (item != "") {
        item = from item
        sub(/::self/, "", item)
        name = last_of(item)
        sub(/.* as /, "", name)
        sub(/ as .*/, "", item)
        brought[module[level] "::" name] = item
    }
}

function margin_of(text) {
    sub(/[^ ].*/, "", text)
    return text
}

# plain(HEAD): the path of a type or a trait, or a module's name.
function plain(head) {
    sub(/ where .*/, "", head)
    gsub(/(pub(\([a-z]+\))?|unsafe|mod|trait|impl|mut|dyn) /, "", head)
    gsub(/[^A-Za-z0-9_:]/, "", head)
    return head
}

# begin_block(HEAD): a module, a trait or an impl begins.
function begin_block(head,    side) {
    level++
    margin[level] = margin_of(head)
    module[level] = module[level - 1]
    type[level] = trait[level] = ""
    gsub(/->/, "", head)
    while (gsub(/<[^<>]*>/, " ", head));
    if (head ~ /(^| )mod /) {
        module[level] = module[level] "::" plain(head)
        modules[module[level]]
    } else if (head ~ /(^| )trait /) {
        sub(/:.*/, "", head)
        type[level] = trait[level] = plain(head)
        ours[module[level] "::" type[level]]
    } else if (split(head, side, / for /) == 2) {
        trait[level] = plain(side[1])
        type[level] = plain(side[2])
    } else type[level] = plain(head)
}

# begin_function: what is left of the line is behind the name.
function begin_function() {
    match($0, /fn [a-z0-9_]+/)
    name[++count] = substr($0, RSTART + 3, RLENGTH - 3)
    module_of[count] = module[level]
    type_of[count] = type[level]
    trait_of[count] = trait[level]
    takes_self[count] = 0
    begins[count] = name[count] == "main" || /extern "" fn/
    caller = count
    caller_margin = margin_of($0)
    heading = 1
    $0 = substr($0, RSTART + RLENGTH)
}

# note_calls: the calls on the line.
function note_calls(    before, path, word) {
    while (match($0, /[A-Za-z_][A-Za-z0-9_]*(::[A-Za-z_][A-Za-z0-9_]*)*/)) {
        before = substr($0, 1, RSTART - 1)
        path = substr($0, RSTART, RLENGTH)
        $0 = substr($0, RSTART + RLENGTH)
        if (last_of(path) ~ /^[a-z_]/ && (/^\(/ || path ~ /::/)) {
            called[++calls] = path
            called_by[calls] = caller
            called_in[calls] = module[level]
            called_type[calls] = type[level]
            if (before ~ /::$/) form[calls] = "cast"
            else if (before == "." && word == "self") form[calls] = "self"
            else if (before ~ /(^|[^.])\.$/) form[calls] = "dot"
        }
        word = path
    }
}

# callees(CALL): the numbers of the functions that a call may be of.
function callees(call,    path, here, to) {
    path = called[call]
    here = called_in[call]
    if (form[call] == "cast") return typed[path]
    if (form[call] == "dot") return methods_in(path, first_of(here))
    if (form[call] == "self" || path ~ /^Self::/) to = full(called_type[call], here) "::" last_of(path)
    else to = full(path, here)
    if (above(to) in ours) return promised[last_of(to)]
    if (to in functions) return functions[to]
    if (form[call] == "self") return methods_in(path, first_of(here))
    return path ~ /::/ ? promised[last_of(path)] : ""
}

# methods_in(NAME, CRATE): the methods of that name of the types that a crate can have, and those of our traits.
function methods_in(name, crate,    each, n, i, list) {
    n = split(methods[name], each, " ")
    for (i = 1; i <= n; i++) if (each[i] in of_ours || can_have(crate, first_of(key[each[i]]))) list = list " " each[i]
    return list
}

# reach(LIST): the functions in a list are called, and what they call.
function reach(list,    each, n, i) {
    n = split(list, each, " ")
    for (i = 1; i <= n; i++) if (!(each[i] in reached)) {
        reached[each[i]]
        reach(calls_of[each[i]])
    }
}

# A line of crates.txt.
NR == FNR {
    sub(/#.*/, "")
    split($0, side, ":")
    sub(/ .*/, "", side[1])
    if (side[1] != "") uses[side[1]] = side[2]
    next
}

FNR == 1 {
    level = caller = heading = clause = skipped = brackets = 0
    head = brings = ""
    module[0] = FILENAME
    sub(/^crates\//, "", module[0])
    sub(/\/src\//, "/", module[0])
    sub(/(\/(lib|main|mod))?\.rt$/, "", module[0])
    gsub(/\//, "::", module[0])
    modules[module[0]]
}

# Letters, texts, comments, lifetimes and types in front of a bracket are no calls.
{
    gsub(/'([^'\\]|\\.)'/, "")
    gsub(/"([^"\\]|\\.)*"/, "\"\"")
    sub(/ *\/\/.*/, "")
    gsub(/'[a-z_]+ ?/, "")
    while (sub(/::<[^<>]*(<[^<>]*>[^<>]*)*>/, ""));
}

# Nor are attributes and what is there for proofs alone.
/^ *#!?\[/ || /^ *(pub )?ghost / { skipped = 1 }

skipped {
    brackets += gsub(/[[{(]/, "&") - gsub(/[]})]/, "&")
    skipped = brackets > 0
    next
}

# What begins with `use`, and the head of a block or of a function, may go over several lines.
/^ *(pub(\([a-z]+\))? )?use / {
    sub(/^ *(pub(\([a-z]+\))? )?use /, "")
    brings = " "
}

brings != "" {
    brings = brings $0
    if (sub(/;$/, "", brings)) {
        bring(brings, "")
        brings = ""
    }
    next
}

/^ *(pub(\([a-z]+\))? )?((unsafe )?(trait |impl[ <])|mod )/ { head = " " }

head != "" {
    head = head == " " ? $0 : head $0
    if (/\{$/) begin_block(head)
    if (/[{};]$/) head = ""
    next
}

/^ *(pub(\([a-z]+\))? )?((const|unsafe|extern "") )*fn [a-z]/ { begin_function() }

# Clauses are for proofs alone. A function that ends with its head is asked for by a trait.
heading && /^ *(requires|ensures)[ {]/ { clause = 1 }

heading {
    if (!clause && /[^A-Za-z0-9_.]self([^A-Za-z0-9_.:]|$)/) takes_self[count] = 1
    bodiless = /;$/ && trait[level] != "" && trait[level] == type[level]
    if (bodiless) {
        count--
        caller = 0
    }
    if (bodiless || /^ *\{$/ || !clause && /\{/) heading = clause = 0
    if (heading || bodiless || !sub(/^[^{]*\{/, "")) next
}

/^ *\}$/ {
    if (caller && $0 == caller_margin "}") caller = 0
    else if (!caller && level && $0 == margin[level] "}") level--
}

{ note_calls() }

END {
    for (i = 1; i <= count; i++) {
        key[i] = (type_of[i] == "" ? module_of[i] : full(type_of[i], module_of[i])) "::" name[i]
        functions[key[i]] = functions[key[i]] " " i
        if (type_of[i] != "") typed[name[i]] = typed[name[i]] " " i
        if (takes_self[i]) methods[name[i]] = methods[name[i]] " " i
        if (trait_of[i] == "") continue
        if (full(trait_of[i], module_of[i]) in ours) {
            of_ours[i]
            promised[name[i]] = promised[name[i]] " " i
        } else begins[i] = 1
    }
    for (i = 1; i <= calls; i++) calls_of[called_by[i]] = calls_of[called_by[i]] callees(i)
    reach(0)
    for (i = 1; i <= count; i++) if (begins[i]) reach(i)
    n = split(kept, names, " ")
    for (i = 1; i <= n; i++) {
        if (!(names[i] in functions)) told[++some] = "kept, and not there: " names[i]
        else if (functions[names[i]] + 0 in reached) told[++some] = "kept, and called: " names[i]
    }
    for (i = 1; i <= n; i++) reach(functions[names[i]])
    for (i = 1; i <= count; i++) if (!(i in reached)) told[++some] = key[i]
    for (i = 1; i <= some; i++) print told[i]
    exit some > 0
}
