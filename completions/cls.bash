# Completion of `cls`, `clsynth-check` and `clsynth` for bash. To use it: source this file, say in ~/.bashrc.

_cls_program_options='--workers --max-goals --max-rules --pool'

# Offers words.
_cls_offer() {
    COMPREPLY=($(compgen -W "$1" -- "${COMP_WORDS[COMP_CWORD]}"))
}

# Offers files of clsynth, and folders.
_cls_files() {
    local word=${COMP_WORDS[COMP_CWORD]} found
    COMPREPLY=()
    while IFS= read -r found; do
        COMPREPLY+=("$found")
    done < <(compgen -f -X '!*.cls' -- "$word"; compgen -d -S / -- "$word")
    compopt -o filenames -o nospace 2>/dev/null
    [[ ${#COMPREPLY[@]} -eq 1 && ${COMPREPLY[0]} == *.cls ]] && compopt +o nospace 2>/dev/null
}

# Whether the word before takes a value that can't be completed.
_cls_wants_value() {
    case ${COMP_WORDS[COMP_CWORD - 1]} in
        --workers | --max-goals | --max-rules | --pool | --max | --after | --filter | -n | generate) return 0 ;;
    esac
    return 1
}

_cls() {
    local word=${COMP_WORDS[COMP_CWORD]} command=${COMP_WORDS[1]} options
    COMPREPLY=()
    if ((COMP_CWORD == 1)); then
        _cls_offer 'run explain check list why missing view --help --version'
        return
    fi
    _cls_wants_value && return
    case $command in
        run) options="--json --strict $_cls_program_options" ;;
        explain | why | missing) options=$_cls_program_options ;;
        list) options="-n --text --filter --after --max $_cls_program_options" ;;
        view) options="-o $_cls_program_options" ;;
        check) options= ;;
        *) return ;;
    esac
    if [[ $word == -* ]]; then
        _cls_offer "--help $options"
    elif [[ $command == @(run|explain|check) ]] || ((COMP_CWORD == 2)); then
        _cls_files
    fi
}

_cls_check() {
    COMPREPLY=()
    if [[ ${COMP_WORDS[COMP_CWORD]} == -* ]]; then
        _cls_offer '--help --version'
    else
        _cls_files
    fi
}

_clsynth() {
    COMPREPLY=()
    _cls_wants_value || _cls_offer "$_cls_program_options generate"
}

complete -F _cls cls
complete -F _cls_check clsynth-check
complete -F _clsynth clsynth
