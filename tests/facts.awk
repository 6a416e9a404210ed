# Prints what is in the tree, a fact to a line, for tests/names: first comes a list of the tree's paths (file "-"), then
# the sources. A 'spec' is a name in a file of definitions, or in a record or beside a statement there.
FILENAME == "-" {
    print "file " $0
    n = split($0, p, "/")
    print "file " p[n]
    print "name " p[n]
    if (p[1] != "crates") next
    if (n == 2) print "crate " p[2]
    if (n > 3) print "file " substr($0, length(p[1] p[2]) + 3)
    if (n == 4 && p[3] ~ /^(edits|must-fail)$/ && sub(/\.edit$/, "", p[4])) print "edit " p[2] " " p[4]
    if (sub(/\.(antt|rt)$/, "", p[n])) print "name " p[n] "\nstem " p[n] "\npart " p[2] " " p[n]
    next
}
FNR == 1 {
    flush()
    n = split(FILENAME, p, "/")
    file = stem = p[n]
    sub(/\..*/, "", stem)
    crate = p[1] == "crates" ? p[2] : ""
    part = p[3]
    holder = ""
}
function declare(name) {
    print "name " name
    print "test " file " " name
    if (FILENAME ~ /^bindings/) print "wrapper " stem " " name
    if (holder != "" && holder != name)
        print (crate == "" ? "wrapper " : part == "src" ? "function " : "spec ") holder " " name
    if (crate != "") print "part " crate " " name
    if (part == "src") print "function " crate " " name
    if (part == "proofs") print "law " crate " " stem " " name
    if (part != "specs") return
    print "def " name "\nspec " stem " " name
    names[++count] = name
}
# what stands beside a statement that is no record
function flush(    k, j) {
    for (k = 1; k <= count; k++) if (names[k] ~ /^[A-Z]/ && !(names[k] in record))
        for (j = 1; j <= count; j++) print "spec " names[k] " " names[j]
    count = 0
}
# names of the prover's library too
/^use / && match($0, /[{].*[}]/) {
    n = split(substr($0, RSTART + 1, RLENGTH - 2), p, ", ")
    for (k = 1; k <= n; k++) print "name " p[k]
}
FILENAME ~ /\.antt$/ {
    if (/^(--|use |unfolding |module |mod |pub mod |infix)/) next
    if (/^[^ ]/) {
        holds = /^(pub )?(record|data) /
        while ($1 ~ /^(pub|abbrev|unfoldable|record|data)$/) sub(/^[a-z]+ /, "")
        holder = holds ? $1 : ""
        if (holds) record[$1]
        declare($1)
    } else if (/^  (pub )?[^ ]+ :( |$)/) declare($1 == "pub" ? $2 : $1)
    next
}
FILENAME ~ /^include/ {
    gsub(/[^A-Za-z0-9_]/, " ")
    for (k = 1; k <= NF; k++) print "name " $k
    next
}
/^}/ { holder = "" }
/^impl / { holder = $(NF - 1) }
match($0, /(^|[ (])(fn|struct|enum|const) [A-Za-z_][A-Za-z0-9_]*/) {
    name = substr($0, RSTART, RLENGTH)
    sub(/.* /, "", name)
    declare(name)
}
END { flush() }
