# The place of a record of a table's file, and its field: NAME is the file, RECORD and COLUMN are those of the program's line, COLUMNS the table's columns, one a line.
# Records are read as the program reads them. It runs in the locale C.

# One line's bytes behind those of the record that is open. `state` is 0 at a field's start, 1 in a field, 2 in quotes, 3 behind a quote in quotes.
function read_line(text,    i, byte) {
    for (i = 1; i <= length(text); i++) {
        byte = substr(text, i, 1)
        if (byte == "\r" && state != 2) {
            end_record()
        } else if (byte == "," && state != 2) {
            end_field()
        } else if (byte == "\"" && (state == 0 || state == 2)) {
            state = state == 0 ? 2 : 3
            is_open = 1
        } else {
            if (state == 3 && byte == "\"") state = 2
            else if (state != 2) state = 1
            is_open = 1
            value = value byte
        }
    }
}
function end_field() {
    is_open = 1
    field[++fields] = value
    value = ""
    state = 0
}
# An empty line is no record.
function end_record() {
    if (is_open) {
        end_field()
        check()
    }
    fields = 0
    is_open = 0
    begun = NR
}
function check() {
    if (record++ < ENVIRON["RECORD"] + 0) return
    tell()
    found = 1
    exit
}
function tell(    column) {
    column = ENVIRON["COLUMN"] + 0
    where = ENVIRON["NAME"] ", " (ENVIRON["RECORD"] > 0 ? "record " ENVIRON["RECORD"] " (line " begun ")" : "header")
    if (column == 0) {
        print where (fields == columns ? ":" : ": " counted(fields, " field") ", where the table has " counted(columns, " column") ".")
    } else {
        print where ", column " column " (" name[column] "): the field is " shown(field[column]) "."
    }
    if (ENVIRON["RECORD"] + 0 == 0) print_header()
}
function counted(number, what) {
    return number what (number == 1 ? "" : "s")
}
function shown(text) {
    gsub(/[\r\n]/, " ", text)
    return text == "" ? "empty" : (length(text) > 60 ? substr(text, 1, 60) "..." : text)
}
function print_header(    i, line) {
    for (i = 1; i <= columns; i++) line = line (i > 1 ? "," : "") name[i]
    print "The header of the table is " line
}
BEGIN {
    columns = split(ENVIRON["COLUMNS"], name, "\n")
    begun = 1
}
NR == 1 { sub(/^\357\273\277/, "") }
{
    if (!is_open) begun = NR
    if (!is_open && $0 !~ /["\r]/) {
        # A line without quotes is a record by itself.
        if ($0 == "") next
        if (record < ENVIRON["RECORD"] + 0) { record++; next }
        fields = split($0, field, ",")
        check()
    }
    read_line($0)
    if (state == 2) { value = value "\n" } else end_record()
}
END {
    if (!found && is_open) end_record()
    if (!found) {
        print ENVIRON["NAME"] ": it has no record."
        print_header()
    }
}
