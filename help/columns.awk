# The name and the columns, one a line, of the table of number TABLE in a schema that was accepted. Status 1: it has no such table.
{
    sub(/--.*/, "")
    text = text " " tolower($0)
}
END {
    gsub(/[(),;]/, " & ", text)
    count = split(text, token, " ")
    for (i = 1; i <= count; i++) {
        if (token[i] == "create") {
            table++
            depth = 0
            if (table == ENVIRON["TABLE"] + 0) print token[i + 2]
        } else if (token[i] == "(") {
            depth++
        } else if (token[i] == ")") {
            depth--
        }
        starts = depth == 1 && (token[i] == "(" || token[i] == ",") && token[i + 1] != "primary"
        if (starts && table == ENVIRON["TABLE"] + 0) print token[i + 1]
    }
    exit (table < ENVIRON["TABLE"] + 0)
}
