# Completion of agefile for bash: source this file, or copy it to
# ~/.local/share/bash-completion/completions/agefile

_agefile() {
    local word=${COMP_WORDS[COMP_CWORD]} before=${COMP_WORDS[COMP_CWORD-1]} command=${COMP_WORDS[1]} options=
    local commands="encrypt decrypt test restore resume inspect drill salvage proof"
    local opening="--pass --identity --file-key --shared --max-log"
    # bash takes --pass=FILE as three words.
    [ "$word" = = ] && word=
    [ "$before" = = ] && before=${COMP_WORDS[COMP_CWORD-2]}
    COMPREPLY=()
    if [ "$COMP_CWORD" = 1 ]; then
        mapfile -t COMPREPLY < <(compgen -W "$commands help --help --version -e -d -p -r -R -i -o" -- "$word")
        return
    fi
    case $before in
        --log | --max-log)
            mapfile -t COMPREPLY < <(compgen -W "$(seq 1 22)" -- "$word")
            return ;;
        --file-key | --recipient | -r) return ;;
    esac
    case $command in
        encrypt) options="--pass --recipient --recipients-file --identity --log --random --no-sync --overwrite --progress --help" ;;
        decrypt) options="$opening --save --no-sync --overwrite --progress --help" ;;
        test) options="$opening --progress --help" ;;
        restore) options="$opening --overwrite --progress --help" ;;
        resume) options="--position --old $opening --save --no-sync --overwrite --progress --help" ;;
        salvage) options="--pass --identity --max-log --overwrite --help" ;;
        inspect | proof) options="--help" ;;
        drill) options="--clear --pass --help" ;;
        help) mapfile -t COMPREPLY < <(compgen -W "$commands" -- "$word"); return ;;
        -*) options="--encrypt --decrypt --passphrase --recipient --recipients-file --identity --output" ;;
    esac
    # After -- no word is an option.
    [[ " ${COMP_WORDS[*]:1:COMP_CWORD-1} " = *" -- "* ]] && options=
    case $word in
        -*) mapfile -t COMPREPLY < <(compgen -W "$options" -- "$word") ;;
        *) compopt -o filenames 2>/dev/null; mapfile -t COMPREPLY < <(compgen -f -- "$word") ;;
    esac
}
complete -F _agefile agefile
