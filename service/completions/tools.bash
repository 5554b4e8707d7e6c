# Completes the options of the tools that are installed as sidetree-NAME, in bash.
_sidetree_tools() {
    local word=${COMP_WORDS[COMP_CWORD]} node="--limit= --v2-at=" words=
    case ${1##*/sidetree-} in
    sidetree-keeper | keeper) words="--feeders= --no-submit --connection-lines= --connection-bytes= --metrics= $node" ;;
    sidetree-follow | follow) words="--every= --most-back=" ;;
    sidetree-resolve | resolve) words="--strangers $node" ;;
    sidetree-shell | shell) words=$node ;;
    sidetree-why | why) words="--v2" ;;
    sidetree-gateway | gateway) words="--listen= --submit= --submits= --forwarded --strict --patience= --metrics=" ;;
    sidetree-journal | journal)
        [ "$COMP_CWORD" = 1 ] && words="check copy shorten batches"
        [[ ${COMP_WORDS[1]} == shorten || ${COMP_WORDS[1]} == batches ]] && words=$node
        ;;
    sidetree-registry | registry)
        words="--store= --listen= --every= --requests= --most-back= --submits= --forwarded $node"
        [ "$COMP_CWORD" = 1 ] && words="up drain publish"
        ;;
    esac
    if [[ $word != -* && $words != check* && $words != up* ]]; then
        mapfile -t COMPREPLY < <(compgen -f -- "$word")
    else
        mapfile -t COMPREPLY < <(compgen -W "$words --help" -- "$word")
        [[ ${COMPREPLY[0]-} == *= ]] && compopt -o nospace
    fi
}
complete -F _sidetree_tools sidetree-keeper sidetree-follow sidetree-feed sidetree-resolve sidetree-tell sidetree-shell sidetree-why sidetree-journal sidetree-gateway sidetree-registry
