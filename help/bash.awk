# The completion of bash, help/voodoo.bash, from help/options.txt.
/^#/ || $0 == "" { next }
$1 == "option" { word[++words] = $2; value[words] = $4 }
$1 == "alone" { alone = alone " " $2 }
END {
    print "# Written by help/pages from help/options.txt. For completion in bash: . help/voodoo.bash"
    print "_voodoo() {"
    print "    local word=${COMP_WORDS[COMP_CWORD]}"
    print "    COMPREPLY=()"
    print "    case $COMP_CWORD in"
    for (i = 1; i <= words; i++) {
        printf "    %d) mapfile -t COMPREPLY < <(compgen -W '%s' -- \"$word\") ;;\n", 2 * i - 1, word[i] (i == 1 ? alone : "")
        if (value[i] == "files") {
            printf "    %d)\n        compopt -o filenames\n        mapfile -t COMPREPLY < <(compgen -f -- \"$word\")\n        ;;\n", 2 * i
        } else {
            printf "    %d) mapfile -t COMPREPLY < <(compgen -W '%s' -- \"$word\") ;;\n", 2 * i, value[i]
        }
    }
    print "    esac"
    print "}"
    print "complete -F _voodoo voodoo"
}
