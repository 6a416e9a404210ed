# Prints what a document says is in the tree, a claim to a line, for tests/names: 'FILE:LINE:', a tab, and forms of the
# claim of which one has to be a line of tests/facts.awk, with '|' between. Code blocks are passed over. With the variable
# `paths` set it prints only paths that stand in backquotes.
function put(s) { print FILENAME ":" FNR ":\t" s }
function claim(s) { if (!paths) put(s) }
function trim(s) {
    gsub(/^ +| +$/, "", s)
    return s
}
function is_name(s) { return s ~ /^[a-z][A-Za-z0-9_]*$/ && s !~ /^(none|all|proved|contracts)$/ }

# A name of one of the crates that a text has in backquotes, the last one first, or else `other`.
function of_one(kind, name, s, other,    forms) {
    if (name !~ /_\*$/) sub(/\*+$/, "", name)
    while (match(s, /`[a-z_]+/)) {
        forms = "|" kind " " substr(s, RSTART + 1, RLENGTH - 1) " " name forms
        s = substr(s, RSTART + RLENGTH)
    }
    claim(substr(forms (other == "" ? "" : "|" other), 2))
}

# What stands in backquotes. After `a::b` a list goes on with more of a.
function code(s, before,    p, n, w) {
    if (before !~ /^(, |,? and )$/) owner = ""
    if (s ~ /^[A-Za-z_]+::/) {
        sub(/[^A-Za-z0-9_:*].*/, "", s)
        n = split(s, p, "::")
        owner = p[1]
        if (row == "" && owner ~ /^[a-z]/) row = owner
        w = owner " " p[n]
        claim(p[n] ~ /\*/ ? "crate " owner : near ~ /wrapper/ ? "wrapper " w : "function " w "|wrapper " w)
    } else if (s ~ /^[a-z0-9_]+$/ && owner != "") claim("function " owner " " s)
    else if (s ~ /^[a-z0-9_]+\(/) of_one("function", substr(s, 1, index(s, "(") - 1), near)
    else if (s ~ /^[A-Za-z0-9_.*+-]+\/[^ ]*$/ || s ~ /^bash [^ ]*\//) path(s)
    else words(s, "code")
}

# 'tests/names', 'bash tests/edits --list', 'crates/*/src/', or an edit, 'scope/surplus_of_one'. Passed over: what a run
# makes, and parts in capitals, which stand for any name.
function path(s,    p) {
    sub(/^bash /, "", s)
    sub(/ .*/, "", s)
    sub(/\/$/, "", s)
    if (s !~ /^[a-z.]/ || s ~ /^target|\/[A-Z]+(\/|$)|[^A-Za-z0-9_.*+\/-]/) return
    split(s, p, "/")
    put("file " s (s ~ /^[a-z]+\/[a-z0-9_]+$/ ? "|edit " p[1] " " p[2] : ""))
}

# The words of a text that are names by their form. A bare one with a _ may be an edit too.
function words(s, kind,    w, p) {
    while (match(s, /[A-Za-z][A-Za-z0-9_.*-]*/)) {
        w = substr(s, RSTART, RLENGTH)
        s = substr(s, RSTART + RLENGTH)
        sub(/[.-]+$/, "", w)
        if (s ~ /^(:| =)/ || w ~ /_t?$/ || w == "File.name") continue
        if (w ~ /\.(rs|rt|c|h|md|antt)$/) claim("file " w)
        else if (w ~ /^[A-Z][A-Za-z0-9]*[a-z][A-Za-z0-9]*\.[A-Za-z]/) {
            split(w, p, ".")
            claim("spec " p[1] " " p[2])
        } else if (w ~ /^[a-z0-9]+_[a-z0-9_]*\**$/ && kind == "text") of_one("edit", w, near, "name " w)
        else if (w ~ /[a-z0-9][A-Z]/ || kind == "code" && w ~ /[a-z0-9][_-][a-z0-9]|^BANKPLAN_/) claim("name " w)
    }
}

# 'plans.rs bank, depth; figures': functions of the file that was named last
function tests(s,    n, k, it, f, w) {
    n = split(s, it, /[,;]/)
    for (k = 1; k <= n; k++) {
        w = trim(it[k])
        if (match(w, /^[a-z_]+\.rs/)) {
            f = substr(w, 1, RLENGTH)
            w = trim(substr(w, RLENGTH + 1))
            sub(/:( .*)?$/, "", w)
        }
        sub(/.*::/, "", w)
        if (f != "" && w ~ /^[A-Za-z_]+$/) claim("test " f " " w)
    }
}

# 'one, two; `crate` three': edits; where no crate is named, of that which the document says
function edits(s,    n, k, m, j, segment, it, w, c) {
    n = split(s, segment, ";")
    for (k = 1; k <= n; k++) {
        s = trim(segment[k])
        c = standard
        if (match(s, /^`[a-z_]+` /)) {
            c = substr(s, 1, RLENGTH)
            s = substr(s, RLENGTH + 1)
        }
        m = split(s, it, ",")
        for (j = 1; j <= m; j++) {
            w = trim(it[j])
            sub(/.* /, "", w)
            if (w ~ /^[a-z0-9]+_[a-z0-9_]*\*?$/) of_one("edit", w, c)
        }
    }
}

# 'Plans.is_plan, banks; TestsMean.plan_11, sides_12; Demand3 rest': what a small name belongs to stands before it
function names(s,    n, k, m, j, i, segment, it, w, heads, h, forms) {
    n = split(s, segment, ";")
    for (k = 1; k <= n; k++) {
        heads = ""
        m = split(segment[k], it, ",")
        for (j = 1; j <= m; j++) {
            w = trim(it[j])
            if (match(w, /^[A-Z][A-Za-z0-9]*( and [A-Z][A-Za-z0-9]*)?:? /)) {
                heads = heads " " substr(w, 1, RLENGTH)
                gsub(/ and |:/, " ", heads)
                w = substr(w, RLENGTH + 1)
                sub(/\..*/, "", w)
            }
            if (w ~ /^[A-Z][A-Za-z0-9]*\.[A-Za-z0-9_]+$/) heads = heads " " substr(w, 1, index(w, ".") - 1)
            else if (w ~ /^[A-Z][A-Za-z0-9]*[a-z][A-Za-z0-9]*$/) {
                claim("def " w "|stem " w)
                heads = heads " " w
            } else if (is_name(w) && heads != "") {
                forms = ""
                for (i = split(heads, h, " "); i; i--) forms = forms "|spec " h[i] " " w
                claim(substr(forms, 2))
            } else heads = ""
        }
    }
}

# What stands in parentheses: fields of a statement, modules of a function, files that carry a proof ('crate, File').
function inside(s, column,    n, k, it, w, c) {
    n = split(s, it, /[,;] /)
    for (k = 1; k <= n; k++) {
        w = it[k]
        if (column ~ /^(Definition|Statement|Theorem)/ && is_name(w)) claim("def " w)
        sub(/^module /, "", w)
        if (column == "Function" && is_name(w)) claim(row == "" ? "stem " w : "part " row " " w)
        if (column !~ /^(What carries|Contract)/) continue
        if (w ~ /^[a-z_][a-z_]+( [A-Z][A-Za-z]*)?$/) {
            c = w
            sub(/ .*/, "", c)
            if (k == 1) claim("crate " c)
            sub(/.* /, "", w)
        }
        if (w !~ /^[A-Z][A-Za-z]+$/) continue
        claim((row == "" ? "stem " w : "part " row " " w) (c == "" ? "" : "|part " c " " w) "|def " w)
    }
}

# 'FinderNone, FinderOrder': the promises, and what their proofs are called if the next cell does not say it
function promise(s,    n, k, it, w) {
    called = ""
    n = split(s, it, ", ")
    for (k = 1; k <= n; k++) {
        claim("def " it[k])
        w = it[k]
        gsub(/[A-Z0-9]/, "_&", w)
        called = called "," substr(tolower(w), 2)
    }
}

# 'finder, Least', 'scope, PlanFacts: `inside_iff`': where a promise is proved
function proof(s,    n, it, at, list) {
    at = list = s
    sub(/:.*/, "", at)
    if (!sub(/.*:/, "", list)) list = substr(called, 2)
    row = substr(at, 1, index(at, ",") - 1)
    sub(/,/, "", at)
    for (n = split(list, it, ","); n; n--) {
        gsub(/[ `]/, "", it[n])
        claim("law " at " " it[n])
    }
}

# 'Starts, Wrapped; checks, Outputs': files of laws, of the crate that stands before them or else of the row's own
function laws(s,    n, k, m, j, segment, it, c) {
    n = split(s, segment, "; ")
    for (k = 1; k <= n && s != "none"; k++) {
        c = row
        m = split(segment[k], it, ", ")
        for (j = 1; j <= m; j++) if (it[j] ~ /^[a-z]/) claim("crate " (c = it[j])); else claim("part " c " " it[j])
    }
}

# A table's cell, or a line of text.
function check(text, column,    s, before, span, bare, kind) {
    owner = ""
    s = text
    while (match(s, /`[^`]*`/)) {
        before = substr(s, 1, RSTART - 1)
        span = substr(s, RSTART + 1, RLENGTH - 2)
        s = substr(s, RSTART + RLENGTH)
        bare = bare before "`"
        code(span, before)
        if (before ~ /edits? of $/ || s ~ /^ [a-z0-9]+_[a-z0-9_]+/) claim("crate " span)
    }
    bare = bare s
    kind = column ~ /^Edits/ ? "edits" : column != "" && bare ~ /[a-z]\.rs/ ? "tests" : "text"
    words(bare, kind)
    if (column == "") return
    if (column == "Promise") promise(bare)
    if (column == "Proof") proof(text)
    if (column == "Laws") laws(bare)
    while (match(text, /\([^()]*\)/)) text = substr(text, 1, RSTART - 1) substr(text, RSTART + RLENGTH)
    while (match(bare, /\([^()]*\)/)) {
        s = substr(bare, RSTART + 1, RLENGTH - 2)
        bare = substr(bare, 1, RSTART - 1) substr(bare, RSTART + RLENGTH)
        if (kind == "text") inside(s, column)
    }
    if (kind == "edits") edits(text)
    if (kind == "tests") tests(bare)
    if (kind == "text" && column ~ /^(Definition|Statement|Theorem|Contract|Rows|What|Held|Where)/) names(bare)
    if (column == "definition") claim("def " bare)
}

FNR == 1 { heading = header = previous = block = "" }
/^```/ { block = !block }
block || /^```/ { next }
match($0, /of `[a-z_]+`, where none is named/) { standard = substr($0, RSTART, RLENGTH) }
/^#/ { heading = $0 }
/^(    |$)/ { header = ""; next }
/^\|[-|]+$/ { next }
{ near = standard heading header previous $0; previous = $0 }
!/^\|/ { header = ""; check($0, ""); next }
header == "" {
    header = $0
    split(header, column, "|")
    next
}
{
    row = ""
    n = split($0, cell, "|")
    for (k = 2; k <= n; k++) check(trim(cell[k]), trim(column[k]))
}
