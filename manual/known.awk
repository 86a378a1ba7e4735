# Reads the lines of tables.awk, and then the specification of the words, which lists the names of flags and of options; and
# refuses a word that is not the same in both.

BEGIN { FS = "\t" }

function refuse(word) {
    print "manual: docs/command-line.md and crates/pl_words/specs/Parts.antt differ in the word " word | "cat >&2"
    status = 1
}

FNR == 1 { files++ }

files == 1 && $1 == "word" { told[$2] = $3 == "" ? "flags" : "options" }

files == 2 && /^abbrev pub / {
    split($0, parts, " ")
    list = parts[3]
}

files == 2 && (list == "flags" || list == "options") && match($0, /"--[a-z-]+"/) {
    known[substr($0, RSTART + 1, RLENGTH - 2)] = list
}

END {
    for (word in told)
        if (!(word in known) || told[word] != known[word])
            refuse(word)
    for (word in known)
        if (!(word in told))
            refuse(word)
    exit status
}
