# Markdown as docs/ uses it to the macros of manual pages: paragraphs, headings, lists, tables, blocks of code. A page has 80 columns.
function plain(text) {
    gsub(/\\/, "\\e", text)
    gsub(/-/, "\\-", text)
    gsub(/'/, "\\(aq", text)
    return text
}
# code may be broken behind a comma, where it has no blank
function code(text) {
    gsub(/,"/, ",\\:\"", text)
    return "\\fB" text "\\fR"
}
function inline(text,    piece) {
    gsub(/examples\//, "", text)
    text = plain(text)
    # a document that is not installed is named by what it is
    while (match(text, /\[[^]]*\]\([^)]*\)/)) {
        piece = substr(text, RSTART + 1, RLENGTH - 1)
        sub(/\].*/, "", piece)
        if (piece ~ /\.md$/) piece = "the manual in the project\\(aqs sources"
        text = substr(text, 1, RSTART - 1) piece substr(text, RSTART + RLENGTH)
    }
    while (match(text, /`[^`]*`/))
        text = substr(text, 1, RSTART - 1) code(substr(text, RSTART + 1, RLENGTH - 2)) substr(text, RSTART + RLENGTH)
    while (match(text, /\*\*[^*]*\*\*/))
        text = substr(text, 1, RSTART - 1) "\\fB" substr(text, RSTART + 2, RLENGTH - 4) "\\fR" substr(text, RSTART + RLENGTH)
    sub(/^\./, "\\\\\\&.", text)
    return text
}
# a paragraph is one line here, so that what spans two of its lines is seen
function flush_text() {
    if (held != "") print inline(held)
    held = ""
}
function code_line(text) {
    text = plain(text)
    sub(/^\./, "\\\\\\&.", text)
    print text
}
# a line that is too wide goes on in the next one: at a gap, else behind a comma or a blank
function fold(text,    at) {
    if (length(text) <= 69) { code_line(text); return }
    at = match(text, /     +/) ? RSTART : 0
    if (at) { code_line(substr(text, 1, at - 1)); fold("    " substr(text, at + RLENGTH)); return }
    for (at = 69; at > 20; at--)
        if (substr(text, at, 1) ~ /[ ,]/) break
    code_line(substr(text, 1, at))
    fold("    " substr(text, at + 1))
}
function flush_code(    i, fits) {
    fits = widest > 69 && widest <= 79
    print (fits ? ".PP\n.nf\n.in 0" : ".PP\n.RS 4\n.nf")
    for (i = 1; i <= lines; i++)
        if (fits) code_line(block[i]); else fold(block[i])
    print (fits ? ".in\n.fi" : ".fi\n.RE")
}
/^```/ {
    flush_text()
    if (fenced) flush_code()
    lines = widest = 0
    fenced = !fenced
    next
}
fenced || /^    [^ ]/ && !listed {
    gsub(/examples\//, "")
    if (!fenced) { flush_text(); sub(/^    /, ""); print ".PP\n.RS 4\n.nf"; fold($0); print ".fi\n.RE"; next }
    block[++lines] = $0
    if (length($0) > widest) widest = length($0)
    next
}
/^### / { flush_text(); listed = 0; print ".SS " inline(substr($0, 5)); next }
/^\|( *-+ *\|)+$/ { next }
/^\|/ {
    flush_text()
    line = $0
    gsub(/\\\|/, "\001", line)
    count = split(substr(line, 2, length(line) - 2), cells, "|")
    if (!rows++) { head = count; next }
    print ".TP"
    for (i = 1; i <= count; i++) {
        sub(/^ +/, "", cells[i])
        sub(/ +$/, "", cells[i])
        gsub("\001", "|", cells[i])
    }
    print (cells[1] == "" ? "\\&" : inline(cells[1]))
    for (i = 2; i <= count; i++)
        if (cells[i] != "")
            print inline(cells[i]) (i < count && cells[i + 1] != "" ? ":" : "")
    next
}
{ rows = 0 }
/^$/ { flush_text(); listed = 0; print ".PP"; next }
/^- / { flush_text(); listed = 1; print ".IP \\(bu 2"; held = substr($0, 3); next }
/^[0-9]+\. / { flush_text(); listed = 1; print ".IP " $1 " 4"; held = substr($0, length($1) + 2); next }
{ sub(/^ +/, ""); held = held == "" ? $0 : held " " $0 }
END { flush_text() }
