# The page of `voodoo --help` from help/options.txt.

function wider(text) {
    while (length(text) < wide) text = text " "
    return text
}
# `head` in a column, and `text` beside it, in lines of up to 78 bytes.
function row(head, text,    word, count, i, line) {
    count = split(text, word, " ")
    for (i = 1; i <= count; i++) {
        if (line != "" && wide + length(line) + length(word[i]) > 77) {
            print wider(head) line
            head = line = ""
        }
        line = line (line == "" ? "" : " ") word[i]
    }
    print wider(head) line
}
# A part begins with an empty line, and with its title where it has one.
function part(kind, title, width) {
    if (kind == now) return
    now = kind
    wide = width
    print ""
    if (title != "") print title
}
/^#/ || $0 == "" { next }
$1 == "about" { row("", $2) }
$1 == "form" { part("form", "", 6); print "  " $2; row("", $3) }
$1 == "note" { part("note", "", 0); row("", $2) }
$1 == "option" { part("word", "Words", 22); row("  " $2 " " (split($4, value, " ") > 1 ? value[1] "|" value[2] : $3), $5) }
$1 == "alone" { part("word", "Words", 22); row("  " $2, $3) }
$1 == "variable" { part("variable", "Environment", 22); row("  " $2, $3) }
$1 == "example" { part("example", "Example"); print "  " $2 }
$1 == "status" { part("status", "Exit statuses", 6); row("  " $2, $3) }
$1 == "see" { part("see", "", 0); row("", $2) }
