# Completions of psalgol for Bash: source this file, or copy it as psalgol to a folder that bash-completion reads.
# share/check compares it with the program.

# Offers those of these words that begin like the word at the cursor.
_psalgol_words() {
    mapfile -t COMPREPLY < <(compgen -W "$*" -- "$current")
}

# Offers files.
_psalgol_files() {
    compopt -o filenames 2>/dev/null
    mapfile -t COMPREPLY < <(compgen -f -- "$current")
}

# Offers what may stand behind the volume of a run: the value of an option, an option that wasn't given, or a file.
_psalgol_run() {
    local place word waiting='' ended='' left=' --area --turns --input '
    for ((place = 3; place < COMP_CWORD; place++)); do
        word=${COMP_WORDS[place]}
        if [[ $word == '=' ]]; then
            continue
        elif [[ -n $waiting ]]; then
            waiting=''
        elif [[ -z $ended && $word == -- ]]; then
            ended=yes
        elif [[ -z $ended && $left == *" ${word%%=*} "* ]]; then
            left=${left/ ${word%%=*} / }
            [[ $word == *=* ]] || waiting=$word
        fi
    done
    [[ $current == '=' ]] && current=''
    case $waiting in
    --area) _psalgol_words 16384 ;;
    --turns) _psalgol_words 100000000 ;;
    --input) _psalgol_files ;;
    *)
        if [[ -z $ended && $current == -* ]]; then
            _psalgol_words "$left"
        else
            _psalgol_files
        fi
        ;;
    esac
}

_psalgol() {
    local current=${COMP_WORDS[COMP_CWORD]}
    COMPREPLY=()
    if ((COMP_CWORD == 1)); then
        _psalgol_words format run help --help --version
        return
    fi
    case ${COMP_WORDS[1]} in
    format | run) ;;
    *) return ;;
    esac
    if ((COMP_CWORD == 2)); then
        if [[ $current == -* ]]; then
            _psalgol_words --help
        else
            _psalgol_files
        fi
    elif [[ ${COMP_WORDS[1]} == run && ${COMP_WORDS[2]} != -* ]]; then
        _psalgol_run
    fi
}

complete -F _psalgol psalgol
