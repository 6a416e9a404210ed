# Applies an edit to the copy of a crate in `folder`, by rt's rules (must_fail_one there), or prints why it cannot: each
# 'old:' text stands exactly once in the file of the last 'file:' line. The first line must be a comment.
function bad(why) {
    print why
    pairs = -1
    exit
}

NR == 1 && !/^# ./ { bad("its first line is no comment") }
/^file: / { name = substr($0, 7) }
/^old: / { old = substr($0, 6) }
/^new:/ {
    if ("/" name "/" ~ /\/\.\.\/|^\/\//) bad("a file: line leads out of the crate")
    if (name !~ /^(src|specs|proofs)\//) bad("a file: line names nothing in src, specs or proofs")
    file = folder "/" name
    text = ""
    while ((got = (getline line < file)) > 0) text = text line "\n"
    if (got < 0) bad("the crate has no " name)
    close(file)
    at = index(text, old)
    if (old == "" || !at) bad("an old: text is not in " name)
    rest = substr(text, at + length(old))
    if (index(rest, old)) bad("an old: text is in " name " more than once")
    new = substr($0, 5)
    sub(/^ /, "", new)
    printf "%s%s%s", substr(text, 1, at - 1), new, rest > file
    close(file)
    old = ""
    pairs++
}
END { if (!pairs) print "it has no old: and new: pair" }
