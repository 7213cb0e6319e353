# Completion of t3 for bash: its commands, the files of this folder, and options.

_t3() {
    local LC_ALL=C word=${COMP_WORDS[COMP_CWORD]} names options='' name given
    COMPREPLY=()
    if ((COMP_CWORD == 1)); then
        COMPREPLY=($(compgen -W 'check show list run rewrite asm drill' -- "$word"))
        return
    fi
    case ${COMP_WORDS[1]} in
        check | show) names=1 ;;
        list | asm) names=2 ;;
        run) names=1 options='--steps= --records= --savepoints= --width=' ;;
        rewrite) names=2 options=--mask= ;;
        *) return ;;
    esac
    if ((COMP_CWORD <= names + 1)); then
        # Only files of this folder, under names that t3 takes.
        while IFS= read -r name; do
            if [[ -f $name && $name =~ ^[A-Za-z0-9_][A-Za-z0-9._-]{0,63}$ ]]; then
                COMPREPLY+=("$name")
            fi
        done < <(compgen -f -- "$word")
    else
        # Each option at most once. Bash parts words at `=` too.
        for given in "${COMP_WORDS[@]:names+2:COMP_CWORD-names-2}"; do
            if [[ $given == --* ]]; then
                options=${options/"${given%%=*}="/}
            fi
        done
        COMPREPLY=($(compgen -W "$options" -- "$word"))
        # A number follows at once.
        compopt -o nospace 2>/dev/null
    fi
    return 0
}
complete -F _t3 t3
