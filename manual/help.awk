# Reads the lines of tables.awk, and prints the module of pl_csv_main that has the texts of `pl_csv help`.

BEGIN {
    FS = "\t"
    usage = "pl_csv [words] < input > output\n" \
        "pl_csv multi [--slice=A-B] [words] -- PATH.. > output\n" \
        "pl_csv seek build K PATH [words] > index\n" \
        "pl_csv seek slice A L PATH INDEX [words] > output\n" \
        "pl_csv stream [words] < input > output\n" \
        "pl_csv help [word]\n" \
        "pl_csv version\n"
}

# Markdown as plain text: a link is the page, and code stands as it is.
function plain(text,   link, name) {
    while (match(text, /\[[^]]*\]\([^)]*\)/)) {
        link = substr(text, RSTART, RLENGTH)
        name = substr(link, 2, index(link, "]") - 2)
        text = substr(text, 1, RSTART - 1) "docs/" name substr(text, RSTART + RLENGTH)
    }
    gsub(/`/, "", text)
    return text
}

# A text in lines of at most 79 characters, each behind six spaces.
function wrapped(text,   words, count, i, line, made) {
    count = split(text, words, " ")
    for (i = 1; i <= count; i++) {
        if (line != "" && length(line) + 1 + length(words[i]) > 73) {
            made = made "      " line "\n"
            line = ""
        }
        line = line (line == "" ? "" : " ") words[i]
    }
    return made "      " line "\n"
}

# A text as a string of Rattle.
function quoted(text) {
    gsub(/\\/, "\\\\", text)
    gsub(/"/, "\\\"", text)
    gsub(/\n/, "\\n", text)
    return "\"" text "\""
}

# Keeps what a word means, under its name, and puts it behind the text of all.
function keep(name, head, text) {
    count++
    names[count] = name
    texts[count] = head "\n" text
    all = all "\n" head "\n" text
}

function left_out(text) {
    return wrapped("left out: " plain(text))
}

$1 == "group" { all = all "\n" $2 "\n" }
$1 == "word" { keep($2, "  " $2 ($3 == "" ? "" : " " plain($3)), wrapped(plain($5)) left_out($6)) }
$1 == "multi" {
    if (!many++)
        all = all "\nMany files\n"
    keep(plain($2), "  " plain($2), wrapped(plain($3)) left_out($4))
}
$1 == "seek" {
    if (!seeks++)
        all = all "\nAn index\n"
    name = plain($2)
    sub(/ .*/, "", name)
    keep(name, "  " plain($2), wrapped(plain($3)))
}
$1 == "stream" {
    if (!streams++)
        all = all "\nA stream\n"
    keep(plain($2), "  " plain($2), wrapped(plain($3)))
}
$1 == "value" {
    if (!values++)
        all = all "\nValues\n"
    keep(plain($2), "  " plain($2), wrapped(plain($3)))
}
$1 == "type" {
    if (!types++)
        all = all "\nTYPE\n"
    all = all "\n  " plain($2) "\n" wrapped(plain($3))
}

END {
    print "//! What the words mean, made by manual/make of docs/command-line.md."
    print ""
    print "/// A word, or a value in capitals, and what it means."
    print "pub(crate) struct Meaning {"
    print "    pub word: &'static str,"
    print "    pub text: &'static str,"
    print "}"
    print ""
    print "/// How the program is called, and what all words mean."
    print "pub(crate) static ALL: &str ="
    print "    " quoted(usage all) ";"
    print ""
    print "/// What each word means."
    print "pub(crate) static MEANINGS: [Meaning; " count "] = ["
    for (i = 1; i <= count; i++) {
        print "    Meaning {"
        print "        word: " quoted(names[i]) ","
        print "        text: " quoted(texts[i]) ","
        print "    },"
    }
    print "];"
}
