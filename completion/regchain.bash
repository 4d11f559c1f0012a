# Completion of regchain for bash.
_regchain() {
    local word=${COMP_WORDS[COMP_CWORD]} before=${COMP_WORDS[COMP_CWORD - 1]} options
    if ((COMP_CWORD == 1)); then
        mapfile -t COMPREPLY < <(compgen -W "run audit tree show serve export help version --help --version" -- "$word")
        return
    fi
    case $before in
    --blk | --expect | --journal | --scenario | --svg | --table) mapfile -t COMPREPLY < <(compgen -f -- "$word") && return ;;
    --datadir | --load | --save | --saved) mapfile -t COMPREPLY < <(compgen -d -- "$word") && return ;;
    --color | --fold) mapfile -t COMPREPLY < <(compgen -W "auto always never" -- "$word") && return ;;
    --from | --heights | --history-memory | --last | --seats | --to | --workers) return ;;
    esac
    case ${COMP_WORDS[1]} in
    run) options="--scenario --blk --table --workers --heights --save --expect --json --tree --svg --from --last --fold --color --legend --help" ;;
    audit) options="--saved --datadir --journal --blk --table --heights --quick --explain --to --json --help" ;;
    tree) options="--scenario --saved --blk --table --heights --svg --from --last --fold --color --legend --help" ;;
    show) options="--scenario --help" ;;
    serve) options="--seats --workers --heights --table --blk --load --save --datadir --no-sync --cut --by-need --busy --history-memory --help" ;;
    export) options="--datadir --save --help" ;;
    help) options="run audit tree show serve export version" ;;
    *) return ;;
    esac
    mapfile -t COMPREPLY < <(compgen -W "$options" -- "$word")
}
complete -o filenames -F _regchain regchain
