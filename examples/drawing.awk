# Reads drawings of patterns and prints the bytes of their book, each as a backslash and four octal digits. examples/book calls
# it and says what a drawing is. In the environment: DRAWING, the file's name in messages; WIDEST, the longest line that is read.
# Standard error gets the count of patterns and pixels, or what is wrong. Ends with status 1 where the patterns are no book, and
# with 2 where the lines are no drawing.

function stop(where, why) { print "book: " ENVIRON["DRAWING"] ": " where ": " why > "/dev/stderr"; stopped = 1; exit 2 }
function at(line, column) { return "line " line ", column " column }

# a character by its name
function named(c) {
    if (c == " ") return "a space"
    if (c == "\t") return "a tab"
    if (c == "\r") return "a carriage return"
    if (c ~ /[!-~]/) return "the character " c
    return sprintf("the byte %02X in hex", number[c])
}
# What helps where character k of the line is no part of a drawing.
function hint(c, k) {
    if (index($0, "//") || (c ~ /[ \t\/;-]/ && /[A-NP-Za-np-z]/)) return "a remark has a line of its own, which begins with //"
    if (c ~ /[ \t]/) return (k == 1 ? "take away what stands in front, or " : "") "draw . where there is no pixel"
    if (c == "\r") return "save the file with the usual line ends"
    if (NR == 1 && k == 1 && number[c] <= 16) return "is this the bytes of a book? Then use bash run --bytes"
    if (c !~ /[!-~]/) return "a drawing is plain text: type one of # . O o here"
    return "# is a pixel, . is none, O is a pixel at (0, 0), and o is (0, 0) without a pixel"
}

# the first reason why the patterns are no book, in the order of the book's bytes
function refuse(where, why, more) { if (refused == "") refused = where ": " why (more == "" ? "" : "\nbook: " more) }

# a line of the drawing: its characters, its (0, 0), its pixels
function draw(  rest, gone) {
    if (match($0, /[^#.Oo]/))
        stop(at(NR, RSTART), named(substr($0, RSTART, 1)) " is no part of a drawing; " hint(substr($0, RSTART, 1), RSTART))
    if (remark) stop("line " remark, "a remark inside a drawing; leave an empty line before the next pattern, or take it out")
    if (rows == 0) first = NR
    if (rows > 0 && length($0) != wide && ragged == "") ragged = patterns
    wide = length($0)
    if (match($0, /[Oo]/)) {
        gone = RSTART
        if (mark == "") { mark = at(NR, gone); left = gone; top = rows }
        else stop(at(NR, gone), "a second (0, 0); this pattern has one at " mark)
        if (match(substr($0, gone + 1), /[Oo]/)) stop(at(NR, gone + RSTART), "a second (0, 0); this pattern has one at " mark)
    }
    gone = 0
    for (rest = $0; used <= 64 && match(rest, /[#O]/); rest = substr(rest, RSTART + 1)) {
        used++
        column[used] = gone += RSTART
        row[used] = rows
        line[used] = NR
    }
    rows++
}

function far(z) { return z < -16 || z > 15 }
function byte(z) { return sprintf("\\0%03o", (z + 256) % 256) }

# What helps where a pixel is too far from (0, 0): where the O or o can be.
function span(least, most,  from, to) {
    from = most - 15 > least ? most - 15 : least
    to = least + 16 < most ? least + 16 : most
    return from == to ? to : from " to " to
}
function advice(  k, least, most, high) {
    least = most = column[1]
    for (k = 2; k <= used; k++) {
        if (column[k] < least) least = column[k]
        if (column[k] > most) most = column[k]
    }
    high = row[used] - row[1] + 1
    if (most - least > 31 || high > 32)
        return "a pattern is at most 32 wide and 32 high; this one is " most - least + 1 " wide and " high " high"
    return (mark == "" ? "without an O or o the upper left corner is (0, 0)" : "(0, 0) is at " mark " in this pattern") \
        "; a drawing wider or higher than 16 needs an O (a pixel) or an o (none) near its middle: in column " \
        span(least, most) " of line " span(line[1], line[used])
}

# The pattern that ends here, as bytes. Its pixels stand as they were met, row by row and from left to right: they ascend.
function pattern(  k, x, y) {
    if (used == 0) refuse("line " first, "refused 2: pattern " patterns " has no pixel, and a pattern has 1 to 64")
    if (used > 64) {
        refuse(at(line[65], column[65]), "refused 2: one pixel too many for pattern " patterns ", and a pattern has 1 to 64")
        return
    }
    counts = counts (counts == "" ? "" : ", ") used
    pixels += used
    book = book byte(used)
    for (k = 1; k <= used; k++) {
        x = column[k] - left
        y = row[k] - top
        if (far(x) || far(y)) {
            refuse(at(line[k], column[k]), "refused 3: pattern " patterns " has a pixel at (" x ", " y "), and both numbers go " \
                "from -16 to 15", advice())
            return
        }
        book = book byte(x) byte(y)
    }
}
function finish() {
    if (rows == 0) return
    if (patterns < 16) pattern()
    else if (patterns == 16) many = "line " first ": refused 2: a 17th pattern begins here, and a book has 1 to 16"
    patterns++
    clean()
}
function clean() { rows = used = top = remark = 0; left = 1; mark = "" }

BEGIN {
    for (k = 1; k < 256; k++) number[sprintf("%c", k)] = k
    patterns = 0
    refused = many = ragged = ""
    clean()
}
NR == 1 { sub(/^\357\273\277/, "") }
length($0) > ENVIRON["WIDEST"] + 0 { stop("line " NR, "more than " ENVIRON["WIDEST"] " characters") }
/^[ \t]*\/\// { if (rows) remark = NR; next }
{ sub(/\r+$/, "") }
$0 == "" { finish(); next }
/^[ \t\r]+$/ { stop("line " NR, "nothing but spaces; leave the line empty to end a pattern, or draw . where there is no pixel") }
{ sub(/[ \t\r]+$/, ""); draw() }
END {
    if (stopped) exit 2
    finish()
    if (patterns == 0) refused = "refused 2: no pattern is drawn, and a book has 1 to 16; draw # for each pixel"
    if (many != "") refused = many
    if (refused != "") { print "book: " ENVIRON["DRAWING"] ": " refused > "/dev/stderr"; exit 1 }
    counts = patterns (patterns == 1 ? " pattern of " : " patterns of ") counts (pixels == 1 ? " pixel" : " pixels")
    print "book: " counts > "/dev/stderr"
    if (ragged != "")
        print "book: the lines of pattern " ragged " differ in length; a short line has no pixel at its end" > "/dev/stderr"
    printf "%s", byte(patterns) book
}
