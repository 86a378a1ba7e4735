# Reads the lines of tables.awk, and then the frame pl_csv.1.in of the manual page, and prints that page: a line of the frame
# that is `@` and a kind of line stands for what the tables have of it.

BEGIN {
    FS = "\t"
    prose["\\"] = "\\e"; prose["^"] = "\\(ha"; prose["~"] = "\\(ti"; prose["`"] = "\\(ga"
    for (mark in prose)
        code[mark] = prose[mark]
    code["-"] = "\\-"; code["'"] = "\\(aq"
}

function escaped(text, marks,   i, mark, made) {
    for (i = 1; i <= length(text); i++) {
        mark = substr(text, i, 1)
        made = made ((mark in marks) ? marks[mark] : mark)
    }
    return made
}

# A line of text: none begins as a request does.
function line(text) {
    return text ~ /^[.']/ ? "\\&" text : text
}

# Markdown of one line as roff. Of a link its text is kept.
function inline(text,   parts, count, i, made) {
    while (match(text, /\]\([^)]*\)/))
        text = substr(text, 1, RSTART - 1) substr(text, RSTART + RLENGTH)
    count = split(text, parts, "`")
    for (i = 1; i <= count; i++)
        if (i % 2 == 0)
            made = made "\\fB" escaped(parts[i], code) "\\fP"
        else {
            gsub(/\[/, "", parts[i])
            made = made escaped(parts[i], prose)
        }
    return line(made)
}

function sentence(text,   made) {
    made = inline(text)
    return toupper(substr(made, 1, 1)) substr(made, 2) "."
}

function value_of(text) {
    gsub(/, | or /, "|", text)
    return text == "" ? "" : "=" inline(text)
}

function entry(tag, text) {
    return ".TP\n" tag "\n" text "\n"
}

FNR == 1 { files++ }

files == 1 && $1 == "group" { made["word"] = made["word"] ".SS " $2 "\n"; next }
files == 1 && $1 == "word" {
    made["word"] = made["word"] entry("\\fB" escaped($2, code) "\\fP" value_of($3), sentence($5) "\nWithout it: " inline($6) ".")
    next
}
files == 1 && $1 == "multi" {
    made["multi"] = made["multi"] entry(inline($2), sentence($3) "\nWithout it: " inline($4) ".")
    next
}
files == 1 && ($1 == "seek" || $1 == "stream" || $1 == "value" || $1 == "type") { made[$1] = made[$1] entry(inline($2), sentence($3)); next }
files == 1 && $1 == "status" {
    made["status"] = made["status"] entry("\\fB" $2 "\\fP", sentence($4) "\nFault line: " inline($3) ".\nStandard output: " inline($5) ".")
    next
}
files == 1 && $1 == "example" {
    text = $2
    sub(/\.\/pl_csv/, "pl_csv", text)
    made["example"] = made["example"] line(escaped(text, code)) "\n"
    next
}
files == 1 { next }

/^@/ && (substr($0, 2) in made) { printf "%s", made[substr($0, 2)]; next }
/^@/ { print FILENAME ": no table gives " $0 | "cat >&2"; exit 1 }
{ print }
