# Completes the words of sidetree, in bash.
_sidetree() {
    local word=${COMP_WORDS[COMP_CWORD]} before=" ${COMP_WORDS[*]:1:COMP_CWORD-1} " words
    if [ "$COMP_CWORD" = 1 ]; then
        words="node wallet exchange generate --help --version"
        # The launcher of a checkout has words of its own.
        [ -d "$(dirname -- "$(readlink -f -- "$(type -P -- "$1")")")/launcher" ] && words+=" try test install"
    elif [ "$before" = " try " ]; then
        words="node exchange"
    elif [[ $before == " node "* || $before == " try node "* ]]; then
        # The options come in this order, each at most once.
        case $before in
        *" --journal "*) words="" ;;
        *" --v2-at"*) words="--journal" ;;
        *" --limit"*) words="--v2-at= --journal" ;;
        *) words="--limit= --v2-at= --journal" ;;
        esac
        [[ $before == " try "* ]] && words=${words/--journal/}
    elif [ "${COMP_WORDS[1]}" = install ] && [ "$COMP_CWORD" = 2 ]; then
        mapfile -t COMPREPLY < <(compgen -d -- "$word")
        return
    fi
    mapfile -t COMPREPLY < <(compgen -W "$words" -- "$word")
    [[ ${COMPREPLY[0]-} == *= ]] && compopt -o nospace
}
complete -F _sidetree sidetree
