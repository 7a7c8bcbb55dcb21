# Completion of bzlq for bash: source this file, or put it into the folder of bash-completion under the name bzlq.
# Labels come from the files on the disk and from the last answer; nothing is loaded for them.
_bzlq_labels() {
    # the word that is written, also within quotes, where a query's signs are before the label
    local line=${COMP_LINE:0:COMP_POINT} word quoted head candidate
    word=${COMP_WORDS[COMP_CWORD]}
    quoted=
    case $word in
        [\'\"]*)
            quoted=1
            word=${word:1}
            ;;
        *) word=${line##*[[:space:]]} ;;
    esac
    head=${word%"${word##*[ (,+^]}"}
    word=${word#"$head"}
    case $word in
        *:* | //* | @*) ;;
        *) return 1 ;;
    esac
    compopt -o nospace 2>/dev/null
    mapfile -t COMPREPLY < <(bzlq --complete "$word" 2>/dev/null)
    if [ -n "$quoted" ]; then
        COMPREPLY=("${COMPREPLY[@]/#/$head}")
    elif [[ $COMP_WORDBREAKS == *:* && $word == *:* ]]; then
        # (bash takes what comes after a colon for a word of its own)
        head=${word%"${word##*:}"}
        for candidate in "${!COMPREPLY[@]}"; do
            COMPREPLY[candidate]=${COMPREPLY[candidate]#"$head"}
        done
    fi
}
_bzlq() {
    local word=${COMP_WORDS[COMP_CWORD]} before=${COMP_WORDS[COMP_CWORD - 1]}
    COMPREPLY=()
    case $before in
        --output)
            mapfile -t COMPREPLY < <(compgen -W 'label label_kind package location graph jsonl' -- "$word")
            return
            ;;
        --queries | --program | loads | owner | lint | queries)
            compopt -o filenames 2>/dev/null
            mapfile -t COMPREPLY < <(compgen -f -- "$word")
            return
            ;;
    esac
    case $word in
        -*)
            mapfile -t COMPREPLY < <(compgen -W '--jobs --output --max-steps --large --facts --queries --explain --bundle-path --all --strict --program --raw --clean --version --help' -- "$word")
            return
            ;;
    esac
    _bzlq_labels && return
    if [ "$COMP_CWORD" = 1 ]; then
        mapfile -t COMPREPLY < <(compgen -W 'query ask watch facts queries affected why graph users visible diff join closures shared owner loads unused cycles lint hints stubs bundle' -- "$word")
    else
        compopt -o filenames 2>/dev/null
        mapfile -t COMPREPLY < <(compgen -f -- "$word")
    fi
}
complete -F _bzlq bzlq
