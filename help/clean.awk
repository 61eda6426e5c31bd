# Each line behind two blanks, without what a terminal would obey: a tab is a blank, and a control character, or a byte that is part of no character in UTF-8, is `?`.
# It runs in the locale C, where a character of awk is a byte.
function width_of(text) {
    if (match(text, /^[\040-\176]/)) return 1
    if (match(text, /^(\302[\240-\277]|[\303-\337][\200-\277])/)) return 2
    if (match(text, /^(\340[\240-\277]|[\341-\354\356\357][\200-\277]|\355[\200-\237])[\200-\277]/)) return 3
    if (match(text, /^(\360[\220-\277]|[\361-\363][\200-\277]|\364[\200-\217])[\200-\277][\200-\277]/)) return 4
    return 0
}
{
    gsub(/\t/, " ")
    rest = $0
    shown = ""
    while (rest != "") {
        width = width_of(rest)
        # The byte and those that continue it are one wrong character.
        if (width == 0 && match(rest, /^(\302[\200-\237]|.)/)) width = -RLENGTH
        shown = shown (width > 0 ? substr(rest, 1, width) : "?")
        rest = substr(rest, (width > 0 ? width : -width) + 1)
    }
    print (shown == "" ? "" : "  " shown)
}
