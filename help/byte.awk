# The place of the byte AT of a text of SIZE bytes, by line and column, its line and a caret. NAME is the text's file. Columns count characters from 1. It runs in the
# locale C, where a character of awk is a byte.
function characters(text) {
    gsub(/[\200-\277]/, "", text)
    return length(text)
}
function blanks(count,    made) {
    while (count-- > 0) made = made " "
    return made
}
# The line, and the caret below its byte `at`, counted from 0; of a long line 50 bytes on each side.
function show(text, at,    from) {
    from = at > 60 && length(text) > 100 ? at - 50 : 0
    while (from > 0 && substr(text, from + 1, 1) ~ /[\200-\277]/) from--
    sub(/\r$/, "", text)
    print "  " (from > 0 ? "..." : "") substr(text, from + 1, at - from + 50) (length(text) > at + 50 ? "..." : "")
    print "  " blanks(characters(substr(text, from + 1, at - from)) + (from > 0 ? 3 : 0)) "^"
}
BEGIN { at = ENVIRON["AT"] + 0 }
/[^ \t\r]/ { last = $0 }
at < start + length($0) + 1 && at < ENVIRON["SIZE"] + 0 {
    print ENVIRON["NAME"] ", line " NR ", column " characters(substr($0, 1, at - start)) + 1 ":"
    show($0, at - start)
    found = 1
    exit
}
{ start += length($0) + 1 }
END {
    if (found) exit
    sub(/[ \t\r]+$/, "", last)
    print ENVIRON["NAME"] ", at its end:"
    show(last, length(last))
}
