# Reads the lines of tables.awk, and prints the completions of zsh.

BEGIN {
    FS = "\t"
    print "#compdef pl_csv"
    print "# Completions of pl_csv for zsh, made by manual/make of docs/command-line.md."
    print ""
    print "# Behind `multi` and a word `--` stand paths."
    print "if (( CURRENT > 3 )) && [[ $words[2] == multi ]] && (( ${words[3,CURRENT-1][(I)--]} )); then"
    print "    _files"
    print "    return"
    print "fi"
    print ""
    print "# Behind `seek` stands what is done, and paths stand there too, each at its place."
    print "if (( CURRENT == 3 )) && [[ $words[2] == seek ]]; then"
    print "    compadd build slice"
    print "    return"
    print "fi"
    print "if [[ $words[2] == seek && \" build5 slice6 slice7 \" == *\" $words[3]$CURRENT \"* ]]; then"
    print "    _files"
    print "    return"
    print "fi"
    print ""
    print "_arguments \\"
}

# A text inside a specification of _arguments, within single quotes: a backslash stands before what would end its part.
function escaped(text,   i, mark, made) {
    gsub(/`/, "", text)
    for (i = 1; i <= length(text); i++) {
        mark = substr(text, i, 1)
        if (index("\\[]:", mark))
            mark = "\\" mark
        else if (mark == "'")
            mark = "'\\''"
        made = made mark
    }
    return made
}

# The words of many files; `--` itself needs no completion.
$1 == "multi" {
    name = $2
    gsub(/`/, "", name)
    if (name == "multi")
        lines[++count] = "    '1: :(multi seek stream help version)'"
    else if (name ~ /=/)
        lines[++count] = "    '" substr(name, 1, index(name, "=")) "[" escaped($3) "]:A-B: '"
}

$1 == "word" {
    text = "'" $2 ($3 == "" ? "" : "=") "[" escaped($5) "]"
    if ($3 != "")
        text = text ":" escaped($3) ":" ($4 == "" ? " " : "(" $4 ")")
    lines[++count] = "    " text "'"
}

END {
    for (i = 1; i <= count; i++)
        print lines[i] (i < count ? " \\" : "")
}
