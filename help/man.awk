# The man page, help/voodoo.1, from help/options.txt.
function plain(text) {
    gsub(/\\/, "\\e", text)
    gsub(/-/, "\\-", text)
    sub(/^[.']/, "\\\\\\&&", text)
    return text
}
function part(kind, title) {
    if (kind == now) return
    if (now == "example") print ".fi\n.RE"
    now = kind
    print ".SH " title
    if (kind == "example") print ".RS\n.nf"
}
function item(head, text) {
    print ".TP"
    print ".B " head
    print plain(text)
}
BEGIN {
    print ".\\\" Written by help/pages from help/options.txt."
    print ".TH VOODOO 1"
    print ".SH NAME"
    print "voodoo \\- answers SQL queries over tables in CSV files"
}
/^#/ || $0 == "" { next }
$1 == "about" { about = $2 }
$1 == "form" { part("form", "SYNOPSIS"); if (forms++) print ".br"; print ".B " plain($2) }
$1 == "note" { part("note", "DESCRIPTION"); print plain(about); print plain($2) }
$1 == "option" { part("word", "OPTIONS"); item(plain($2 " " (split($4, value, " ") > 1 ? value[1] "|" value[2] : $3)), $5) }
$1 == "alone" { part("word", "OPTIONS"); item(plain($2), $3) }
$1 == "variable" { part("variable", "ENVIRONMENT"); item($2, $3) }
$1 == "example" { part("example", "EXAMPLES"); print plain($2) }
$1 == "status" { part("status", "EXIT STATUS"); item($2, $3) }
$1 == "see" { part("see", "SEE ALSO"); print plain($2) }
