# Reads docs/command-line.md, and prints its tables as lines of fields with a tab between them:
#
#   group   HEADING                                  the words behind it stand under this heading
#   word    NAME VALUE FIXED MEANING DEFAULT         VALUE is empty for a flag; FIXED: the texts that a value can be
#   multi   NAME MEANING DEFAULT                     a word of many files
#   seek    NAME MEANING                             a word of an index, with those behind it
#   stream  NAME MEANING                             a word of a stream
#   value   NAME MEANING                             what a value is
#   type    WORDS MEANING
#   status  NUMBER FAULT-LINE CASE OUTPUT
#   example LINE
#
# A table is known by its heads. Their cells are Markdown still.

BEGIN {
    kinds["Word|Value|Meaning|Where it is left out"] = "word"
    kinds["Word of many files|Meaning|Where it is left out"] = "multi"
    kinds["Word of an index|Meaning"] = "seek"
    kinds["Word of a stream|Meaning"] = "stream"
    kinds["Value|What it is"] = "value"
    kinds["TYPE|Type"] = "type"
    kinds["Status|Fault line|When|Standard output"] = "status"
}

function refuse(text) {
    print FILENAME ":" FNR ": " text | "cat >&2"
    refused = 1
    exit 1
}

# The texts in code of the cell of a value, with a space between them.
function fixed_texts(cell,   texts, count, i, found) {
    count = split(cell, texts, "`")
    for (i = 2; i <= count; i += 2) {
        if (texts[i] !~ /^[a-z]+$/)
            refuse("a value in code has small letters alone, so that no shell needs it quoted: " texts[i])
        found = found (found == "" ? "" : " ") texts[i]
    }
    return found
}

function print_word(   name, value) {
    name = cells[1]
    if (name !~ /^`--[a-z]+(-[a-z]+)*`$/)
        refuse("this is no word: " name)
    name = substr(name, 2, length(name) - 2)
    if (name in names)
        refuse("this word stands twice: " name)
    names[name] = 1
    if (heading != group)
        print "group\t" heading
    group = heading
    value = cells[2] == "takes none" ? "" : cells[2]
    print "word\t" name "\t" value "\t" fixed_texts(value) "\t" cells[3] "\t" cells[4]
}

function print_row(   i, line) {
    line = kind
    for (i = 1; i <= width; i++)
        line = line "\t" cells[i]
    print line
}

function take_row(   text, count, heads) {
    text = $0
    gsub(/^\| *| *\|$/, "", text)
    count = split(text, cells, / *\| */)
    rows++
    if (rows == 1) {
        heads = text
        gsub(/ *\| */, "|", heads)
        kind = (heads in kinds) ? kinds[heads] : ""
        width = count
        return
    }
    if (kind == "" || rows == 2)
        return
    if (count != width)
        refuse("this row has not the cells of its table")
    if (index(text, "\t"))
        refuse("this row has a tab")
    met[kind] = 1
    if (kind == "word")
        print_word()
    else
        print_row()
}

/^```/ { fenced = !fenced; next }

fenced {
    if (heading == "Examples") {
        met["example"] = 1
        print "example\t" $0
    }
    next
}

/^#/ { heading = $0; sub(/^#+ */, "", heading) }

/^\|/ { take_row(); next }

{ rows = 0 }

END {
    if (refused)
        exit 1
    for (all in kinds)
        if (!(kinds[all] in met))
            refuse("there is no table with the heads " all)
    if (!("example" in met))
        refuse("there are no examples")
}
