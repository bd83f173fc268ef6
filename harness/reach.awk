# What a reader must believe: the definitions of specs/ that the contracts of the exports reach, by name, at any remove.
#
#   LC_ALL=C awk -v list=yes|no -f harness/reach.awk FILE..
#
# FILE: every crates/NAME/specs/*.antt, and the .rt files with the exports. Prints the lines of the reached declarations without blanks and
# comments; with list=yes, before that, each of them with its lines, its file, and what reached it first. Rattle's own structs and enums
# (specs.declared) and the kit's libraries are not followed. What can't be read is an error: nothing is left out in silence.
#
# A name is any run of characters but spaces and ( ) { } . ; , @ "; of an operator, as ◌⊕◌, each part is a name too.

function fail(message) { print "reach: " message > "/dev/stderr"; bad = 1; exit 1 }

# The tokens of a text: names (a path a.b.c is one, and so is x.f, a field), brackets, = : ; , and "." where it ends binders. A field of a bracket is left out.
function tokens(text, tok,    n, before) {
    n = 0
    before = " "
    gsub(/«|»/, "", text)
    while (text != "") {
        if (match(text, /^[^ (){}.;,@"\t\n]+(\.[^ (){}.;,@"\t\n]+)*/)) tok[++n] = substr(text, 1, RLENGTH)
        else if (match(text, /^\.[^ (){}.;,@"\t\n]+/) && before ~ /[ )}\t\n]/) ;
        else {
            RLENGTH = 1
            if (substr(text, 1, 1) !~ /[ \t\n@"]/) tok[++n] = substr(text, 1, 1)
        }
        before = substr(text, RLENGTH, 1)
        text = substr(text, RLENGTH + 1)
    }
    return n
}

# Makes a name, and each part of an operator, mean something in a file.
function bring(table, file, name, what,    part, n, k) {
    table[file, name] = what
    if (name !~ /◌/) return
    n = split(name, part, "◌")
    for (k = 1; k <= n; k++) if (part[k] != "") table[file, part[k]] = what
}

# The file of a path Rattle.CRATE.specs.MODULE, or "" where the path leads to no definition of the repository.
function file_of(path,    part, n, k, crate, file) {
    if (path !~ /^Rattle\./) return ""
    n = split(path, part, ".")
    crate = part[2]
    if (!(crate in crates) || part[4] == "declared") return ""
    file = crate
    for (k = 3; k <= n; k++) file = file "/" part[k]
    return n == 3 ? file "/Lib" : file
}

# A `use` line: PATH.{a, b as c}, PATH, or PATH as Q.
function import(file, text,    tok, n, k, path, name) {
    if (text ~ /\.\* *$/) fail(file ": `" text "`: a line that names no names")
    sub(/^.*use +(package\.)?/, "", text)
    sub(/\.\{/, " {", text)
    n = tokens(text, tok)
    path = expand(file, tok[1])
    if (tok[2] != "{") {
        name = tok[1]
        sub(/^.*\./, "", name)
        alias[file, tok[2] == "as" ? tok[3] : name] = path
        return
    }
    for (k = 3; k <= n && tok[k] != "}"; k++) {
        if (tok[k] == ",") continue
        name = tok[k]
        if (tok[k + 1] == "as") k += 2
        bring(imported, file, tok[k], path "." name)
    }
}

# A path whose first word is a module's name in this file, written in full.
function expand(file, path,    first, at) {
    at = index(path, ".")
    first = at ? substr(path, 1, at - 1) : path
    return (file, first) in alias ? alias[file, first] (at ? substr(path, at) : "") : path
}

# The declaration that a whole path names, as FILE SUBSEP NAME; "" where it is none of the repository.
function resolve_path(path,    file, name) {
    match(path, /.*\./)
    name = substr(path, RLENGTH + 1)
    path = substr(path, 1, RLENGTH - 1)
    file = file_of(path)
    if (file == "") return ""
    if (file in read) return found(file, name, path)
    # a constructor behind its type
    match(path, /.*\./)
    name = substr(path, RLENGTH + 1)
    file = file_of(substr(path, 1, RLENGTH - 1))
    if (file in read && file != "") return found(file, name, path)
    fail("no file of specs/ is " path)
}

function found(file, name, path) {
    if ((file, name) in own) return own[file, name]
    if ((file, name) in imported) return resolve_path(imported[file, name])
    fail(path " has no `" name "`")
}

# The declaration that a word names in a file; "" where none.
function resolve(file, word,    first, at) {
    if ((file, word) in own) return own[file, word]
    if ((file, word) in imported) return resolve_path(imported[file, word])
    at = index(word, ".")
    if (!at) return ""
    first = substr(word, 1, at - 1)
    if (word ~ /^Rattle\./ || (file, first) in alias) return resolve_path(expand(file, word))
    return resolve(file, first)
}

function bind(name, at) { if (name != "_") { bound[++scope] = name; bound_at[scope] = at } }
function is_bound(name,    k) { for (k = scope; k > 0; k--) if (bound[k] == name) return 1; return 0 }
function unbind(depth) { while (scope > 0 && bound_at[scope] >= depth) scope-- }

# Follows each word of tok[from..to] that is bound nowhere around it. A name is bound by (x y : A), λ x y. and let x =, to the end of the
# bracket around that; a name before = in braces is a field's.
function follow(file, tok, from, to, by,    k, j, n, depth, binder, binds_at, kind, typed, some) {
    depth = 0
    binder = ""
    for (k = from; k <= to; k++) {
        if (tok[k] == "(" || tok[k] == "{") {
            kind[++depth] = tok[k]
            typed[depth] = ""
            for (j = k + 1; j <= to && tok[j] !~ /^[(){}.;,:=]$/; j++);
            if (j > k + 1 && tok[j] == ":") while (++k < j) typed[depth] = typed[depth] " " tok[k]
        } else if (tok[k] == ")" || tok[k] == "}") {
            unbind(depth)
            n = split(typed[depth], some, " ")
            depth--
            for (j = 1; j <= n; j++) bind(some[j], depth)
        } else if (tok[k] == ";") { if (kind[depth] == "{") unbind(depth) }
        else if (tok[k] == "λ" || tok[k] == "∀" || tok[k] == "let") { binder = tok[k]; binds_at = depth }
        else if (tok[k] == "." || tok[k] == "=") binder = ""
        else if (tok[k] == ":") { if (binder == "let") binder = "type" }
        else if (tok[k] == ",") continue
        else if (binder ~ /^(λ|∀|let)$/ && (depth == binds_at || typed[depth] == "")) bind(tok[k], binds_at)
        else if (k < to && (tok[k + 1] == "←" || (tok[k + 1] == "=" && binder == ""))) { if (kind[depth] != "{") bind(tok[k], depth) }
        else if (!is_bound(tok[k]) && !is_bound(substr(tok[k], 1, index(tok[k] ".", ".") - 1))) reach(resolve(file, tok[k]), by)
    }
}

# Takes a declaration into those that are reached.
function reach(what, by) {
    if (what == "" || what in reached) return
    reached[what] = by
    queue[++queued] = what
}

# Follows a declaration: its first line, and each clause, field or constructor. A field is bound in those after it, a pattern in its clause.
function visit(what,    at, file, n, k, part, tok, m, j, from, keep, c) {
    split(what, at, SUBSEP)
    file = at[1]
    n = split(text[what], part, "\034")
    keep = scope = 0
    for (k = 1; k <= n; k++) {
        scope = keep
        m = tokens(part[k], tok)
        from = 1
        while (tok[from] ~ /^(unfoldable|abbrev|pub)$/) from++
        if (k == 1 && (tok[from] == "record" || tok[from] == "data")) {
            follow(file, tok, from + 2, m, at[2])
            keep = scope
        } else {
            for (j = from; j <= m && tok[j] !~ /^[:=({]$/; j++);
            if (j <= m && tok[j] == ":") {
                follow(file, tok, j + 1, m, at[2])
                if (record[what] && k > 1) {
                    scope = keep
                    for (; from < j; from++) bind(tok[from], 0)
                    keep = scope
                }
            } else {
                for (j = from; j <= m && tok[j] != "="; j++) {
                    if (tok[j] ~ /^[(){},.;]$/) continue
                    c = resolve(file, tok[j])
                    if (c == what) continue
                    if (c != "" && is_constructor_of(c, tok[j])) reach(c, at[2]); else bind(tok[j], 0)
                }
                follow(file, tok, j + 1, m, at[2])
            }
        }
    }
}

# Whether a word that names a declaration names it as its constructor.
function is_constructor_of(what, word,    at) {
    split(what, at, SUBSEP)
    return what in data && word != at[2]
}

# ---- reading

FNR == 1 {
    end_file()
    file = FILENAME
    sub(/\.(antt|rt)$/, "", file)
    is_code = FILENAME ~ /\.rt$/
    if (is_code) { code[++codes] = file; all = "" } else { read[file] = 1; order[++files] = file }
    crate = file
    sub(/\/.*/, "", crate)
    crates[crate] = 1
    what = ""
    using = ""
    comment = 0
}

is_code { sub(/\/\/.*/, ""); all = all " " $0; whole[file] = all; next }

{ if (comment || /^[ \t]*\{-/) { comment = !/-\}/; next } }
/^[ \t]*(--|$)/ { next }
{ line = $0; sub(/(^| )--.*/, "", line) }
using != "" || /^((unfoldable )?pub )?use / {
    using = using " " line
    if (using ~ /\{/ && using !~ /\}/) next
    uses[++lines_of_use] = file "\t" using
    using = ""
    next
}
/^(pub )?mod / { next }
/^(mutual|module|ruleset|axiom|«)/ { fail(FILENAME ":" FNR ": a declaration that is not read: " $0) }
/^infix/ { fixity[file, $3]++; next }

/^[^ ]/ {
    n = split(line, word, " ")
    k = 1
    while (word[k] ~ /^(unfoldable|abbrev|pub)$/) k++
    if (word[k] == "record" || word[k] == "data" || word[k + 1] == ":") {
        name = word[k + 1] == ":" ? word[k] : word[k + 1]
        what = file SUBSEP name
        if (what in text) fail(FILENAME ":" FNR ": `" name "` is declared twice")
        declared[file, ++count[file]] = what
        record[what] = word[k] == "record"
        if (word[k] == "data") data[what] = 1
        bring(own, file, name, what)
        text[what] = line
        size[what] = 1
        next
    }
    if (what == "" || k > 1) fail(FILENAME ":" FNR ": a declaration that is not read: " $0)
    text[what] = text[what] (line ~ /^[)}]/ ? " " : "\034") line
    size[what]++
    next
}

{
    if (what == "") fail(FILENAME ":" FNR ": a line of no declaration: " $0)
    n = split(line, word, " ")
    k = word[1] == "pub" ? 2 : 1
    for (j = k; j <= n && word[j] !~ /^[:=]$/ && word[j] !~ /[(){}]/; j++);
    starts = j > k && word[j] == ":" && (record[what] || what in data)
    if (starts && what in data) for (; k < j; k++) bring(own, file, word[k], what)
    text[what] = text[what] (starts ? "\034" : " ") line
    size[what]++
}

function end_file() { if (using != "") fail(file ": a `use` line without an end") }

# The names in the contracts of a file's exports.
function exports(file,    tok, n, k, j, depth, used) {
    all = whole[file]
    while (match(all, /ghost use [^;]*;/)) {
        used = substr(all, RSTART, RLENGTH - 1)
        all = substr(all, RSTART + RLENGTH)
        import(file, used)
    }
    all = whole[file]
    while (match(all, /extern "C" +fn /)) {
        all = substr(all, RSTART + RLENGTH)
        n = tokens(all, tok)
        name = tok[1]
        scope = 0
        for (k = 2; k <= n; k++) {
            if (tok[k] ~ /.:$/) bind(substr(tok[k], 1, length(tok[k]) - 1), -1)
            if (tok[k] != "{") continue
            if (tok[k - 1] !~ /^(ensures|requires)$/ && tok[k - 2] !~ /^(ensures|requires)$/) break
            depth = 1
            for (j = k + 1; j <= n && depth; j++) depth += (tok[j] == "{") - (tok[j] == "}")
            follow(file, tok, k + 1, j - 2, name)
            k = j - 1
        }
    }
}

END {
    if (bad) exit 1
    end_file()
    for (k = 1; k <= lines_of_use; k++) { split(uses[k], pair, "\t"); import(pair[1], pair[2]) }
    for (k = 1; k <= codes; k++) exports(code[k])
    if (!queued) fail("no export has a contract that names a definition of specs/")
    for (next_one = 1; next_one <= queued; next_one++) visit(queue[next_one])
    for (k = 1; k <= files; k++) {
        for (j = 1; j <= count[order[k]]; j++) {
            what = declared[order[k], j]
            if (!(what in reached)) continue
            split(what, at, SUBSEP)
            n = size[what] + fixity[what]
            total += n
            if (list == "yes") printf "%4d  %s.antt  %s  (%s)\n", n, at[1], at[2], reached[what]
        }
    }
    print total
}
