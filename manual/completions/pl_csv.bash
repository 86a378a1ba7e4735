# Completions of pl_csv for bash, made by manual/make of docs/command-line.md.

_pl_csv() {
    local current=${COMP_WORDS[COMP_CWORD]} before='' option prefix='' given='' texts=() text
    COMPREPLY=()
    ((COMP_CWORD > 0)) && before=${COMP_WORDS[COMP_CWORD - 1]}
    # Behind a redirection stands the name of a file, which bash completes by itself.
    if [[ $before == [\<\>]* ]]; then
        compopt -o default 2>/dev/null
        return
    fi
    # Behind `multi` and a word `--` stand paths, which bash completes by itself.
    if [[ ${COMP_WORDS[1]} == multi ]] && ((COMP_CWORD > 2)) && [[ " ${COMP_WORDS[*]:2:COMP_CWORD - 2} " == *' -- '* ]]; then
        compopt -o default 2>/dev/null
        return
    fi
    # Behind `seek` stand paths too, each at its place.
    if [[ ${COMP_WORDS[1]} == seek ]] && [[ " build4 slice5 slice6 " == *" ${COMP_WORDS[2]}$COMP_CWORD "* ]]; then
        compopt -o default 2>/dev/null
        return
    fi
    # An option and its value: as two words, or as one, which bash cuts at = where COMP_WORDBREAKS has it.
    option=$before
    if [[ $current == --*=* ]]; then
        option=${current%%=*} prefix=${current%%=*}= current=${current#*=}
    elif [[ $current == = ]]; then
        current=''
    elif [[ $before == = ]] && ((COMP_CWORD > 1)); then
        option=${COMP_WORDS[COMP_CWORD - 2]}
    fi
    case $option in
    --infer) texts=(all) ;;
    --quote) texts=(none) ;;
    --out-eol) texts=(lf crlf) ;;
    --style) texts=(necessary always nonnumeric never) ;;
    # Values of the user's own.
    --schema | --overwrite | --dtypes | --sep | --eol | --comment | --skip-lines | --skip-rows | \
        --skip-after | --limit | --columns | --projection | --row-index | --row-offset | --workers | \
        --piece | --null | --nulls | --null-of | --out-sep | --out-quote | --out-null | --batch | \
        --make) ;;
    *)
        [[ $prefix || $before == = ]] && return
        # No name stands twice.
        given=" ${COMP_WORDS[*]:1:COMP_CWORD - 1} "
        texts=(
            --schema --overwrite --infer --dates --allow-empty --dtypes --sep --quote --eol --comment
            --skip-lines --skip-rows --skip-after --limit --columns --projection --row-index
            --row-offset --workers --piece --no-header --null --nulls --null-of --lossy
            --keep-missing --truncate --ignore-errors --out-sep --out-quote --out-null --out-eol
            --style --out-no-header --out-bom --batch --make
        )
        # `multi`, `seek`, `stream`, `help` and `version` are first words; behind `multi` stands a slice first, and `--` anywhere.
        ((COMP_CWORD == 1)) && texts+=(multi seek stream help version)
        [[ ${COMP_WORDS[1]} == seek ]] && ((COMP_CWORD == 2)) && texts=(build slice)
        [[ ${COMP_WORDS[1]} == multi ]] && ((COMP_CWORD > 1)) && texts+=(--)
        [[ ${COMP_WORDS[1]} == multi ]] && ((COMP_CWORD == 2)) && texts+=(--slice=)
        ;;
    esac
    for text in "${texts[@]}"; do
        [[ $text == "$current"* && $given != *" $text"[\ =]* ]] && COMPREPLY+=("$prefix$text")
    done
}

complete -F _pl_csv pl_csv
