# Completion of golly_canon's words in bash.

_golly_canon() {
    local commands="canon convert same show step keys duplicates help"
    local formats="rle mc" forms="placed moved turned phases"
    local word=${COMP_WORDS[COMP_CWORD]} previous=${COMP_WORDS[COMP_CWORD - 1]} front= at
    COMPREPLY=()
    if [ "$COMP_CWORD" -eq 1 ]; then
        COMPREPLY=($(compgen -W "$commands --help --version -h -V" -- "$word"))
        return
    fi
    if [ "${COMP_WORDS[1]}" = help ]; then
        [ "$COMP_CWORD" -gt 2 ] || COMPREPLY=($(compgen -W "$commands" -- "$word"))
        return
    fi
    # bash breaks `--to=rle` into the words `--to`, `=` and `rle`. Where COMP_WORDBREAKS lacks `=` it is one word, and stays in front of the answer.
    if [ "$word" = = ]; then
        word=
    elif [ "$previous" = = ]; then
        previous=${COMP_WORDS[COMP_CWORD - 2]}
    elif [[ $word = --*=* ]]; then
        previous=${word%%=*} front=$previous= word=${word#*=}
    fi
    if [ "${COMP_WORDS[1]}" = convert ] && [ "$previous" = --to ]; then
        COMPREPLY=($(compgen -P "$front" -W "$formats" -- "$word"))
        return
    fi
    if [[ ${COMP_WORDS[1]} =~ ^(canon|same|keys|duplicates)$ ]] && [ "$previous" = --form ]; then
        COMPREPLY=($(compgen -P "$front" -W "$forms" -- "$word"))
        return
    fi
    case $word in
        -*)
            case ${COMP_WORDS[1]} in
                convert) COMPREPLY=($(compgen -W "--to --explain --help -h" -- "$word")) ;;
                step) COMPREPLY=($(compgen -W "--table --generations --explain --help -h" -- "$word")) ;;
                canon | same) COMPREPLY=($(compgen -W "--form --within --explain --help -h" -- "$word")) ;;
                keys) COMPREPLY=($(compgen -W "--form --within --ignore-generation --zero --json --from --stream --recursive -r --help -h" -- "$word")) ;;
                duplicates) COMPREPLY=($(compgen -W "--form --within --ignore-generation --zero --from --recursive -r --help -h" -- "$word")) ;;
                show) COMPREPLY=($(compgen -W "--period --explain --help -h" -- "$word")) ;;
            esac
            [ ${#COMPREPLY[@]} -eq 0 ] || return
            ;;
    esac
    # One file a line, as a name may have spaces. One that begins with - would be taken for an option, so it comes with its folder.
    compopt -o filenames 2> /dev/null
    mapfile -t COMPREPLY < <(compgen -P "$front" -f -- "$word")
    for at in "${!COMPREPLY[@]}"; do
        [[ $front || ${COMPREPLY[at]} != -* ]] || COMPREPLY[at]=./${COMPREPLY[at]}
    done
}

complete -F _golly_canon golly_canon
