# The refusals that crates/run_steps/specs/Statuses.antt knows, as in help/refusals.txt: the exit status, and the program's line without `voodoo: ` and numbers.

# What the equation of a `_name` prints: one word, or all those of another such definition.
function name_words(name, right,    other) {
    if (match(right, /codes "[^"]*"/)) {
        word = substr(right, RSTART + 7, RLENGTH - 8)
        sub(/ $/, "", word)
        words[name] = words[name] " " word
    } else {
        other = right
        sub(/ .*/, "", other)
        words[name] = words[name] words[other]
    }
}
# The lines that an equation prints, each behind ` | `: its first text, and where it prints a name all the words of that.
function lines_of(right,    start, i, count, word, made) {
    match(right, /"voodoo: [^"]*"/)
    start = substr(right, RSTART + 9, RLENGTH - 10)
    sub(/: (byte|line) $/, ": ", start)
    sub(/^table $/, "table: ", start)
    sub(/\\n$/, "", start)
    if (!match(right, /[a-z_]+_name/)) return " | " start
    count = split(words[substr(right, RSTART, RLENGTH)], word, " ")
    for (i = 1; i <= count; i++) made = made " | " start word[i]
    return made
}
function equation(text,    left, right, name) {
    if (text !~ /^[a-z_]+ .* = /) return
    name = text
    sub(/ .*/, "", name)
    left = right = text
    sub(/ = .*/, "", left)
    sub(/^.* = /, "", right)
    status = left
    sub(/^[a-z_]+ [(]?/, "", status)
    sub(/[ )].*/, "", status)
    if (name == "status_code") code[status] = right
    else if (name ~ /_name$/) name_words(name, right)
    else if (name == "status_line") printed[status] = right ~ /"voodoo: / ? lines_of(right) : line[substr(right, 1, index(right " ", " ") - 1)]
    else if (name ~ /_line$/) line[name] = lines_of(right)
}
/^ / { whole = whole $0; next }
{ equation(whole); whole = $0 }
END {
    equation(whole)
    for (status in code) {
        count = split(printed[status], key, " [|] ")
        for (i = 2; i <= count; i++) print code[status] " | " key[i]
    }
}
