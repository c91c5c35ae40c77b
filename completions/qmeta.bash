# Completions of qmeta for bash.

# The commands, each with what may stand at each place after it. Words in capitals stand for others; `..` repeats the last.
_qmeta_commands=(
    'info IMAGE'
    'list IMAGE'
    'map IMAGE json'
    'at IMAGE OFFSET'
    'tables IMAGE'
    'layout IMAGE svg'
    'refcount IMAGE CLUSTER..'
    'check IMAGE json|repair'
    'apply IMAGE plan|EDIT EDIT..'
    'edit IMAGE L1INDEX EDIT..'
    'count IMAGE CLUSTER STEP..'
    'l2 IMAGE CLUSTER_BITS CLUSTER'
    'help COMMAND'
    'explain FAULT IMAGE'
    'version'
)

# What may stand at the cursor, as a command's line says it.
_qmeta_place() {
    local line places number=$((COMP_CWORD - 1))
    [[ ${COMP_WORDS[number]} != [\<\>]* ]] || { echo IMAGE; return; }
    ((number > 0)) || { echo COMMAND; return; }
    for line in "${_qmeta_commands[@]}"; do
        read -ra places <<<"$line"
        [[ ${places[0]} == "${COMP_WORDS[1]}" ]] || continue
        [[ ${places[number]} || ${places[-1]} != *.. ]] || number=-1
        echo "${places[number]%..}"
    done
}

_qmeta() {
    local kind kinds words=()
    IFS='|' read -ra kinds < <(_qmeta_place)
    for kind in "${kinds[@]}"; do
        case $kind in
        IMAGE) compopt -o default ;;
        COMMAND) words+=("${_qmeta_commands[@]%% *}") ;;
        FAULT) words+=({1..42}) ;;
        EDIT) words+=(discard: zero: keep: map:) ;;
        STEP) words+=(inc: dec:) ;;
        [[:lower:]]*) words+=("$kind") ;;
        esac
    done
    mapfile -t COMPREPLY < <(compgen -W "${words[*]}" -- "${COMP_WORDS[COMP_CWORD]}")
    [[ ${COMPREPLY[0]} != *: ]] || compopt -o nospace
}

complete -F _qmeta qmeta
