# Completion of dspfx for bash: the commands, and file names where one is named. Sourced, or installed as
# share/bash-completion/completions/dspfx.
_dspfx() {
    local word=${COMP_WORDS[COMP_CWORD]} command=${COMP_WORDS[1]} place=$COMP_CWORD
    COMPREPLY=()
    if [ "$place" = 1 ]; then
        COMPREPLY=($(compgen -W 'run bank gen print convert resume check prove test help --help --version' -- "$word"))
        return
    fi
    [ "$command" != resume ] || [ "$place" = 2 ] || command=${COMP_WORDS[2]}
    case $command:$place in
    run:[234] | bank:[234] | check:[234] | gen:[45] | print:2 | convert:[45] | stop:[456] | go:[345])
        compopt -o filenames
        mapfile -t COMPREPLY < <(compgen -f -- "$word")
        ;;
    run:5 | bank:5) COMPREPLY=($(compgen -W block -- "$word")) ;;
    resume:2) COMPREPLY=($(compgen -W 'stop go' -- "$word")) ;;
    convert:2) COMPREPLY=($(compgen -W 'wave au' -- "$word")) ;;
    convert:3)
        if [ "${COMP_WORDS[2]}" = au ]; then COMPREPLY=($(compgen -W wave -- "$word"))
        else COMPREPLY=($(compgen -W au -- "$word")); fi
        ;;
    esac
}
complete -F _dspfx dspfx ./dspfx
