# Completion of streams and blueprint for bash. `make install` puts it under both names into share/bash-completion/completions.

# The files of this folder that a blueprint may name, which begin with $1 and end with $2.
_streams_files() {
    local file
    COMPREPLY=()
    while IFS= read -r file; do
        [[ -f $file && $file == *"$2" && $file =~ ^[A-Za-z0-9][A-Za-z0-9._-]{0,63}$ ]] && COMPREPLY+=("$file")
    done < <(compgen -f -- "$1")
}

# The options of streams that may follow the words $1, each with a space on both sides.
_streams_options() {
    local option options=()
    for option in --workers --turns --trace --replay --gen; do
        [[ $1 == *" $option "* ]] && continue
        [[ $option == --replay && $1 =~ \ --(workers|gen)\  ]] && continue
        [[ $option == --workers && $1 == *" --replay "* ]] && continue
        [[ $option == --gen && $1 =~ \ (--replay|[A-Za-z0-9][^\ ]*\.blue)\  ]] && continue
        options+=("$option")
    done
    printf '%s\n' "${options[@]}"
}

_streams() {
    local current=${COMP_WORDS[COMP_CWORD]} before=${COMP_WORDS[COMP_CWORD - 1]} used=" ${COMP_WORDS[*]:1:COMP_CWORD-1} "
    # Bash makes three words of `--turns=5`.
    [[ $before == = ]] && before=${COMP_WORDS[COMP_CWORD - 2]}
    [[ $current == = ]] && { before=${COMP_WORDS[COMP_CWORD - 1]}; current=; }
    case $before in
        --workers) COMPREPLY=($(compgen -W "1 2 4 8 16 32 64" -- "$current")) ;;
        --turns) COMPREPLY=($(compgen -W "1000 1000000 100000000 4000000000" -- "$current")) ;;
        --gen) COMPREPLY=($(compgen -W "4 1000 100000 10000000" -- "$current")) ;;
        --trace | --replay) _streams_files "$current" "" ;;
        *)
            case $current in
                -*) COMPREPLY=($(compgen -W "$(_streams_options "$used")" -- "$current")) ;;
                *) _streams_files "$current" .blue ;;
            esac
            ;;
    esac
}

_blueprint() {
    local current=${COMP_WORDS[COMP_CWORD]}
    COMPREPLY=()
    if ((COMP_CWORD == 1)); then
        COMPREPLY=($(compgen -W "check fmt draw explain turns row --help --version" -- "$current"))
    elif ((COMP_CWORD == 2)); then
        case ${COMP_WORDS[1]} in
            check) [[ $current == -* ]] && COMPREPLY=($(compgen -W "--files --help" -- "$current")) || _streams_files "$current" .blue ;;
            fmt | draw | explain | turns) _streams_files "$current" .blue ;;
        esac
    elif ((COMP_CWORD == 3)) && [[ ${COMP_WORDS[1]} == check ]]; then
        case ${COMP_WORDS[2]} in
            --files) _streams_files "$current" .blue ;;
            *) COMPREPLY=($(compgen -W "--files" -- "$current")) ;;
        esac
    fi
}

complete -F _streams streams
complete -F _blueprint blueprint
