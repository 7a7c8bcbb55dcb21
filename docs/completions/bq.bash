# Completion of bq for bash: source this file, or put it into the folder of bash-completion under the name bq.
_bq() {
    local word=${COMP_WORDS[COMP_CWORD]} before=${COMP_WORDS[COMP_CWORD - 1]}
    COMPREPLY=()
    case $before in
        --dir)
            compopt -o filenames 2>/dev/null
            mapfile -t COMPREPLY < <(compgen -d -- "$word")
            ;;
        --bundle | --queries)
            compopt -o filenames 2>/dev/null
            mapfile -t COMPREPLY < <(compgen -f -- "$word")
            ;;
        --output)
            mapfile -t COMPREPLY < <(compgen -W 'label label_kind' -- "$word")
            ;;
        --jobs)
            mapfile -t COMPREPLY < <(compgen -W '1 2 4 8 16 32 64 128 256' -- "$word")
            ;;
        --explain)
            mapfile -t COMPREPLY < <(compgen -W 'F1 F2 F3 F4 F5 F6 F7 F8 F10 F11 F12 F13 F20 F21 F22 F23 F24 F30 F31 F32 F33 F34 F35 F36 F37 F38 F40 F41 F42 F43 F44 F45 F46 F47 F48 F49 F50 F51 F52 F53 F54 F55 F56 F57 F58 F59 F60 F70 F71 F72 F73 F74 F75 F76 F77 F78 F79 F80 Q1 Q2 Q3 Q4 Q5 Q6 Q7 Q8 E1 E2 E3 E4 E6 E7' -- "$word")
            ;;
        --max-steps)
            mapfile -t COMPREPLY < <(compgen -W '1000000 10000000 100000000 1000000000' -- "$word")
            ;;
        *)
            mapfile -t COMPREPLY < <(compgen -W '--jobs --output --max-steps --large --dir --bundle --queries --facts --explain --help --version' -- "$word")
            ;;
    esac
}
complete -F _bq bq
