# Completion of ./drill for bash: . tools/completion/drill.bash
# Written by tools/options from tools/bench/options.py: change that, and run tools/options --write.

# _reckonstile_files WORD PATTERN..: the files that begin so and fit a pattern, and the folders; where there are none, bash offers what it finds
_reckonstile_files() {
    local name pattern word=$1
    shift
    while IFS= read -r name; do
        for pattern in "$@"; do
            # shellcheck disable=SC2053
            if [[ -d $name || $name == $pattern && $pattern != / ]]; then
                COMPREPLY+=("$name")
                break
            fi
        done
    done < <(compgen -f -- "$word")
}

_reckonstile_drill() {
    local word=${COMP_WORDS[COMP_CWORD]} before=${COMP_WORDS[COMP_CWORD - 1]} mode=${COMP_WORDS[1]} option
    local once=() many=() files=() IFS=$' 	
'
    COMPREPLY=()
    if [ "$COMP_CWORD" -eq 1 ]; then
        case $word in
        -*)
            mapfile -t COMPREPLY < <(compgen -W '--explain --page --watch --summary --capture --compare --strike --raw --ready --version --help -h' -- "$word")
            return
            ;;
        esac
        mode=
    fi
    case $mode in
    '' | [!-]*)
        files=('*.drill')
        ;;
    --explain)
        case $before in
        --far)
            compopt +o default +o bashdefault 2>/dev/null  # nothing here is a file
            return
            ;;
        esac
        once=(--far)
        many=()
        files=('*.drill')
        ;;
    --page)
        case $before in
        --far)
            compopt +o default +o bashdefault 2>/dev/null  # nothing here is a file
            return
            ;;
        esac
        once=(--far)
        many=()
        files=('*.drill')
        ;;
    --watch)
        case $before in
        --page)
            _reckonstile_files "$word" '*.html'
            return
            ;;
        --every)
            compopt +o default +o bashdefault 2>/dev/null  # nothing here is a file
            return
            ;;
        --far)
            compopt +o default +o bashdefault 2>/dev/null  # nothing here is a file
            return
            ;;
        esac
        once=(--page --every --far)
        many=()
        files=('/')
        ;;
    --summary)
        case $before in
        --since)
            _reckonstile_files "$word" '*.json'
            return
            ;;
        --far)
            compopt +o default +o bashdefault 2>/dev/null  # nothing here is a file
            return
            ;;
        esac
        once=(--json --csv --since --far)
        many=()
        files=('*.drill')
        ;;
    --capture)
        case $before in
        --all)
            _reckonstile_files "$word" '/'
            return
            ;;
        --box)
            compopt +o default +o bashdefault 2>/dev/null  # nothing here is a file
            return
            ;;
        --server)
            compopt +o default +o bashdefault 2>/dev/null  # nothing here is a file
            return
            ;;
        --port)
            compopt +o default +o bashdefault 2>/dev/null  # nothing here is a file
            return
            ;;
        esac
        once=(--all --server)
        many=(--box --port)
        files=('*.pcap' '*.pcapng' '*.cap')
        ;;
    --compare)
        files=('*')
        ;;
    --strike)
        files=('*.drill')
        ;;
    --raw)
        files=('*.drill')
        ;;
    --ready)
        files=()
        ;;
    --version)
        files=()
        ;;
    --help | -h)
        files=()
        ;;
    esac
    case $word in
    -*)
        for option in "${once[@]}"; do
            case " ${COMP_WORDS[*]:2:COMP_CWORD - 2} " in *" $option "*) ;; *) many+=("$option") ;; esac
        done
        mapfile -t COMPREPLY < <(compgen -W "${many[*]}" -- "$word")
        ;;
    *) _reckonstile_files "$word" "${files[@]}" ;;
    esac
}

complete -o filenames -o bashdefault -o default -F _reckonstile_drill drill
