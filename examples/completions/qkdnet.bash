# Completes the words of qkdnet in bash. .ci/help --write makes this file from the text of --help.
_qkdnet() {
    local forms=(
        "run W"
        "run W --quiet"
        "load N"
        "serve W C PORT"
        "serve W forever PORT"
        "serve W C unix:DIR"
        "serve W C PORT --log"
        "check"
        "veil"
        "audit"
        "audit whole"
        "json"
        "bound HEXA HEXB HEXD"
        "help"
        "--help"
        "-h"
        "--version"
        "-V"
    )
    local typed=${COMP_WORDS[COMP_CWORD]} it at form word
    COMPREPLY=()
    if [[ ${COMP_WORDS[COMP_CWORD - 1]} == [\<\>]* ]]; then
        compopt -o default
        return
    fi
    for it in "${forms[@]}"; do
        read -ra form <<< "$it"
        for ((at = 1; at < COMP_CWORD; at++)); do
            [[ ${form[at - 1]} == [[:upper:]]* || ${form[at - 1]} == "${COMP_WORDS[at]}" ]] || continue 2
        done
        word=${form[COMP_CWORD - 1]}
        [[ $word == [[:upper:]]* || $word != "$typed"* || " ${COMPREPLY[*]} " == *" $word "* ]] || COMPREPLY+=("$word")
    done
}
complete -F _qkdnet qkdnet
