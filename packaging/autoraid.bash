# Completion of autoraid's and ar_client's words for bash.
_autoraid() {
    local word=${COMP_WORDS[COMP_CWORD]} previous=${COMP_WORDS[COMP_CWORD-1]} words
    local made="--geometry --disks --extents" stored="--store --mirror --sync --commit-every"
    local served="--port --sessions --operator --http --http-host --iscsi --login-timeout --idle-timeout --audit --log"
    served+=" --name --spares --iscsi-ping"
    case $previous in
        --geometry) words="small paper" ;;
        --audit) words="full off" ;;
        --sync) words="flush always" ;;
        --store | --mirror) COMPREPLY=($(compgen -d -- "$word")); return ;;
        --operator | --picture) COMPREPLY=($(compgen -f -- "$word")); return ;;
        *)
            case ${COMP_WORDS[1]} in
                run) words="$made --cache --picture --echo" ;;
                create) words="--store --mirror --name $made" ;;
                check | export | import) words="--store" ;;
                serve) words="$made --cache $served $stored" ;;
                *) words="run create check export import serve" ;;
            esac ;;
    esac
    COMPREPLY=($(compgen -W "$words" -- "$word"))
}
complete -F _autoraid autoraid
complete -W "--port --host --operator --wait" ar_client
