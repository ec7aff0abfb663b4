# A help text to the macros of manual pages: options and arguments as a list, examples as examples, and the rest in paragraphs.
function plain(text) {
    gsub(/\\/, "\\e", text)
    gsub(/-/, "\\-", text)
    gsub(/'/, "\\(aq", text)
    while (match(text, /`[^`]*`/))
        text = substr(text, 1, RSTART - 1) "\\fB" substr(text, RSTART + 1, RLENGTH - 2) "\\fR" substr(text, RSTART + RLENGTH)
    sub(/^\./, "\\\\\\&.", text)
    return text
}
function entry(term, text) {
    print ".TP\n\\fB" plain(term) "\\fR"
    print (text == "" ? "\\&" : plain(text))
}
function example(on) {
    if (on && !shown) print ".PP\n.RS 2\n.nf"
    if (!on && shown) print ".fi\n.RE"
    shown = on
}
# examples name files that their reader has
{ gsub(/examples\//, "") }
/^Usage:/ { next }
/^(Arguments|Options):$/ || (/^Commands:$/ && !listed) { example(0); listed = list = 1; print ".PP\n\\fB" $0 "\\fR"; next }
/^$/ { example(0); list = 0; print ".PP"; next }
/^ / {
    sub(/^ +/, "")
    at = match($0, /   +/)
    if (list) { match($0, /  +/); entry(RSTART ? substr($0, 1, RSTART - 1) : $0, RSTART ? substr($0, RSTART + RLENGTH) : ""); next }
    if (at && /^av(scan|guard|tool) /) { example(0); entry(substr($0, 1, at - 1), substr($0, at + RLENGTH)); next }
    example(1)
    count = split($0, pieces, /   +/)
    for (i = 1; i <= count; i++) print plain(pieces[i])
    next
}
{ example(0); print (/:$/ && !/^[a-z]/ ? ".PP\n" : "") plain($0) }
END { example(0) }
