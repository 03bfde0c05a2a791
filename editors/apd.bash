# Completion for apd in bash: source this file.
_apd() {
    local word=${COMP_WORDS[COMP_CWORD]} before=${COMP_WORDS[COMP_CWORD - 1]} apdi=
    [ "${COMP_WORDS[0]##*/}" != apdi ] || apdi=apdi
    # A word with an equals sign comes as three.
    if [ "$word" = = ]; then
        word=
    elif [ "$before" = = ]; then
        before=${COMP_WORDS[COMP_CWORD - 2]}
    fi
    case $before in
    --strategy) mapfile -t COMPREPLY < <(compgen -W "divide single top" -- "$word") ;;
    --budget | --answers | --demo) COMPREPLY=() ;;
    --oracle | --reference | --check) mapfile -t COMPREPLY < <(compgen -f -- "$word") ;;
    *)
        case $word in
        -*) mapfile -t COMPREPLY < <(compgen -W "--budget --answers --trace --strategy --oracle --reference --demo --check${apdi:+ --page}" -- "$word") ;;
        *) mapfile -t COMPREPLY < <(compgen -f -X '!*.pl' -- "$word"; compgen -d -- "$word") ;;
        esac
        ;;
    esac
}
complete -o filenames -F _apd apd ./apd apdi ./apdi
