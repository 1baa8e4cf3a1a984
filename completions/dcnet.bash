# Completion of dcnet for bash: `source completions/dcnet.bash`.
_dcnet_words="sum keygen migrate replay logs twin steer station hub trial --seeds --workers"

_dcnet() {
    local current=${COMP_WORDS[COMP_CWORD]}
    local candidates=
    if [ "$COMP_CWORD" = 1 ]; then
        candidates=${_dcnet_words%% --*}
    elif [[ $current == -* ]]; then
        case ${COMP_WORDS[1]} in
            keygen) candidates=--seeds ;;
            replay | trial) candidates=--workers ;;
        esac
    else
        mapfile -t COMPREPLY < <(compgen -f -- "$current")
        return
    fi
    mapfile -t COMPREPLY < <(compgen -W "$candidates" -- "$current")
}

complete -o filenames -F _dcnet dcnet
