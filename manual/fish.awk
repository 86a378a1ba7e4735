# Reads the lines of tables.awk, and prints the completions of fish.

BEGIN {
    FS = "\t"
    print "# Completions of pl_csv for fish, made by manual/make of docs/command-line.md."
    print ""
    print "complete -c pl_csv -f"
    print "complete -c pl_csv -n __fish_is_first_token -a help -d " quoted("what the words mean, or the word behind it")
    print "complete -c pl_csv -n __fish_is_first_token -a version -d " quoted("which program this is")
}

# A text between single quotes of fish.
function quoted(text,   i, mark, made) {
    gsub(/`/, "", text)
    for (i = 1; i <= length(text); i++) {
        mark = substr(text, i, 1)
        made = made (index("\\'", mark) ? "\\" : "") mark
    }
    return "'" made "'"
}

# The words of many files; behind `--` stand paths.
$1 == "multi" {
    name = $2
    gsub(/`/, "", name)
    if (name == "multi")
        print "complete -c pl_csv -n __fish_is_first_token -a multi -d " quoted($3)
    else if (name == "--")
        print "complete -c pl_csv -n 'contains -- multi (commandline -opc); and contains -- -- (commandline -opc)' -F"
    else
        print "complete -c pl_csv -n 'contains -- multi (commandline -opc)' -l " substr(name, 3, index(name, "=") - 3) " -x -d " quoted($3)
}

# What stands behind `seek`, and the paths behind that.
$1 == "seek" {
    name = $2
    gsub(/`/, "", name)
    if (name == "seek")
        print "complete -c pl_csv -n __fish_is_first_token -a seek -d " quoted($3)
    else {
        sub(/ .*/, "", name)
        print "complete -c pl_csv -n 'contains -- seek (commandline -opc); and not contains -- " name " (commandline -opc)' -a " name " -d " quoted($3)
        print "complete -c pl_csv -n 'contains -- seek (commandline -opc); and contains -- " name " (commandline -opc)' -F"
    }
}

$1 == "stream" {
    name = $2
    gsub(/`/, "", name)
    print "complete -c pl_csv -n __fish_is_first_token -a " name " -d " quoted($3)
}

$1 == "word" {
    print "complete -c pl_csv -l " substr($2, 3) ($3 == "" ? "" : " -x") ($4 == "" ? "" : " -a " quoted($4)) " -d " quoted($5)
}
