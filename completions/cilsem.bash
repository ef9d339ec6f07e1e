# Completions of cilsem for bash.

_cilsem() {
    local word=${COMP_WORDS[COMP_CWORD]} command=${COMP_WORDS[1]}
    if [ "$COMP_CWORD" -eq 1 ]; then
        COMPREPLY=($(compgen -W 'session compile project help --help --version' -- "$word"))
        return
    fi
    case ${COMP_WORDS[COMP_CWORD - 1]} in
        --foreign)
            COMPREPLY=($(compgen -W names -- "$word"))
            return
            ;;
        --booleans)
            COMPREPLY=($(compgen -W 'default both' -- "$word"))
            return
            ;;
        -o | --output)
            compopt -o filenames
            COMPREPLY=($(compgen -d -- "$word"))
            return
            ;;
    esac
    case $command in
        compile | project)
            if [[ $word == -* ]]; then
                local options='--booleans --help'
                if [ "$command" = compile ]; then
                    options="--violations --foreign $options"
                else
                    options="--list --output $options"
                fi
                COMPREPLY=($(compgen -W "$options" -- "$word"))
            else
                compopt -o filenames
                COMPREPLY=($(compgen -f -X '!*.cil' -- "$word") $(compgen -d -- "$word"))
            fi
            ;;
        session)
            COMPREPLY=($(compgen -W '--help' -- "$word"))
            ;;
        help)
            COMPREPLY=($(compgen -W 'session compile project' -- "$word"))
            ;;
    esac
}

complete -F _cilsem cilsem
