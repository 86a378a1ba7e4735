# Reads the lines of tables.awk, and prints the completions of bash.

BEGIN { FS = "\t" }

# Appends a text to a list; where its last line gets long, a new one begins.
function appended(list, between, new_line, text,   lines, count) {
    if (list == "")
        return text
    count = split(list, lines, "\n")
    return list (length(lines[count] between text) > 100 ? new_line : between) text
}

# A word of many files: one with a value is offered up to its `=`.
$1 == "multi" {
    gsub(/`/, "", $2)
    sub(/=.*/, "=", $2)
    if ($2 ~ /=$/)
        slices = appended(slices, " ", " ", $2)
}

# What stands behind `seek`.
$1 == "seek" && $2 ~ / / {
    gsub(/`/, "", $2)
    sub(/ .*/, "", $2)
    seeks = appended(seeks, " ", " ", $2)
}

$1 == "word" {
    words = appended(words, " ", "\n            ", $2)
    if ($4 != "")
        cases = cases "    " $2 ") texts=(" $4 ") ;;\n"
    else if ($3 != "")
        others = appended(others, " | ", " | \\\n        ", $2)
}

END {
    print "# Completions of pl_csv for bash, made by manual/make of docs/command-line.md."
    print ""
    print "_pl_csv() {"
    print "    local current=${COMP_WORDS[COMP_CWORD]} before='' option prefix='' given='' texts=() text"
    print "    COMPREPLY=()"
    print "    ((COMP_CWORD > 0)) && before=${COMP_WORDS[COMP_CWORD - 1]}"
    print "    # Behind a redirection stands the name of a file, which bash completes by itself."
    print "    if [[ $before == [\\<\\>]* ]]; then"
    print "        compopt -o default 2>/dev/null"
    print "        return"
    print "    fi"
    print "    # Behind `multi` and a word `--` stand paths, which bash completes by itself."
    print "    if [[ ${COMP_WORDS[1]} == multi ]] && ((COMP_CWORD > 2)) && [[ \" ${COMP_WORDS[*]:2:COMP_CWORD - 2} \" == *' -- '* ]]; then"
    print "        compopt -o default 2>/dev/null"
    print "        return"
    print "    fi"
    print "    # Behind `seek` stand paths too, each at its place."
    print "    if [[ ${COMP_WORDS[1]} == seek ]] && [[ \" build4 slice5 slice6 \" == *\" ${COMP_WORDS[2]}$COMP_CWORD \"* ]]; then"
    print "        compopt -o default 2>/dev/null"
    print "        return"
    print "    fi"
    print "    # An option and its value: as two words, or as one, which bash cuts at = where COMP_WORDBREAKS has it."
    print "    option=$before"
    print "    if [[ $current == --*=* ]]; then"
    print "        option=${current%%=*} prefix=${current%%=*}= current=${current#*=}"
    print "    elif [[ $current == = ]]; then"
    print "        current=''"
    print "    elif [[ $before == = ]] && ((COMP_CWORD > 1)); then"
    print "        option=${COMP_WORDS[COMP_CWORD - 2]}"
    print "    fi"
    print "    case $option in"
    printf "%s", cases
    print "    # Values of the user's own."
    print "    " others ") ;;"
    print "    *)"
    print "        [[ $prefix || $before == = ]] && return"
    print "        # No name stands twice."
    print "        given=\" ${COMP_WORDS[*]:1:COMP_CWORD - 1} \""
    print "        texts=("
    print "            " words
    print "        )"
    print "        # `multi`, `seek`, `stream`, `help` and `version` are first words; behind `multi` stands a slice first, and `--` anywhere."
    print "        ((COMP_CWORD == 1)) && texts+=(multi seek stream help version)"
    print "        [[ ${COMP_WORDS[1]} == seek ]] && ((COMP_CWORD == 2)) && texts=(" seeks ")"
    print "        [[ ${COMP_WORDS[1]} == multi ]] && ((COMP_CWORD > 1)) && texts+=(--)"
    print "        [[ ${COMP_WORDS[1]} == multi ]] && ((COMP_CWORD == 2)) && texts+=(" slices ")"
    print "        ;;"
    print "    esac"
    print "    for text in \"${texts[@]}\"; do"
    print "        [[ $text == \"$current\"* && $given != *\" $text\"[\\ =]* ]] && COMPREPLY+=(\"$prefix$text\")"
    print "    done"
    print "}"
    print ""
    print "complete -F _pl_csv pl_csv"
}
