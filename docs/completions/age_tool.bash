# Completion of age_tool for bash: source this file, or copy it to
# ~/.local/share/bash-completion/completions/age_tool

_age_tool() {
    local word=${COMP_WORDS[COMP_CWORD]} before=${COMP_WORDS[COMP_CWORD-1]} command=${COMP_WORDS[1]} options=
    # bash takes --pass=FILE as three words.
    [ "$word" = = ] && word=
    [ "$before" = = ] && before=${COMP_WORDS[COMP_CWORD-2]}
    COMPREPLY=()
    if [ "$COMP_CWORD" = 1 ]; then
        mapfile -t COMPREPLY < <(compgen -W "encrypt decrypt resume inspect drill help --help --version" -- "$word")
        return
    fi
    case $before in
        --log | --max-log)
            mapfile -t COMPREPLY < <(compgen -W "$(seq 1 22)" -- "$word")
            return ;;
        --file-key) return ;;
    esac
    case $command in
        encrypt) options="--pass --log --random --no-sync --no-clobber --progress --help" ;;
        decrypt) options="--pass --file-key --shared --max-log --save --no-sync --no-clobber --progress --help" ;;
        resume) options="--position --old --pass --file-key --shared --max-log --save --no-sync --no-clobber --progress --help" ;;
        inspect) options="--help" ;;
        drill) options="--clear --pass --help" ;;
        help) mapfile -t COMPREPLY < <(compgen -W "encrypt decrypt resume inspect drill" -- "$word"); return ;;
    esac
    # After -- no word is an option.
    [[ " ${COMP_WORDS[*]:1:COMP_CWORD-1} " = *" -- "* ]] && options=
    case $word in
        -*) mapfile -t COMPREPLY < <(compgen -W "$options" -- "$word") ;;
        *) compopt -o filenames 2>/dev/null; mapfile -t COMPREPLY < <(compgen -f -- "$word") ;;
    esac
}
complete -F _age_tool age_tool
