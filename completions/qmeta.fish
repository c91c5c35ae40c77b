# Completions of qmeta for fish.

# The commands, each with what may stand at each place after it, and what it does. Words in capitals stand for others; `..`
# repeats the last.
set -g __qmeta_commands \
    'info IMAGE:the main fields of the header' \
    'list IMAGE:the mapping of each mapped guest cluster' \
    'map IMAGE json:the mapping of the whole disk, extent by extent' \
    'at IMAGE OFFSET:the mapping of one guest offset' \
    'tables IMAGE:the places of the header, tables and refcount blocks' \
    'layout IMAGE svg:the content of each host cluster, in runs or as a picture' \
    'refcount IMAGE CLUSTER..:the refcounts of host clusters' \
    'check IMAGE json|repair:whether refcounts and copied flags match the references' \
    'apply IMAGE plan|EDIT EDIT..:change what ranges of the disk read as, with all refcounts' \
    'edit IMAGE L1INDEX EDIT..:change entries of one L2 table, and no refcount' \
    'count IMAGE CLUSTER STEP..:change refcounts of one refcount block' \
    'l2 IMAGE CLUSTER_BITS CLUSTER:list one L2 table, whatever the header says' \
    'help COMMAND:all commands, or the output, statuses and faults of a command' \
    'explain FAULT IMAGE:the meaning of fault N and a remedy, or all faults' \
    'version:the version of this program'

# What may stand at the cursor, as a command's line says it, one a line.
function __qmeta_kinds
    set -l typed (commandline -opc)
    if not set -q typed[2]
        echo COMMAND
        return
    end
    for line in $__qmeta_commands
        set -l places (string split ' ' (string split -f 1 : $line))
        test $places[1] = "$typed[2]"; or continue
        set -l place $places[(math (count $typed))]
        test -z "$place"; and set place (string match '*..' $places[-1])
        string replace .. '' $place | string split '|'
    end
end

function __qmeta_words
    for kind in (__qmeta_kinds)
        switch $kind
            case COMMAND
                string replace -r '( [^:]*)?:' \t $__qmeta_commands
            case FAULT
                seq 42
            case EDIT
                string split ' ' 'discard: zero: keep: map:'
            case STEP
                string split ' ' 'inc: dec:'
            case '*'
                string match -r '^[a-z].*' $kind
        end
    end
end

complete -c qmeta -f -a '(__qmeta_words)'
complete -c qmeta -F -n 'contains IMAGE (__qmeta_kinds)'
