# Completion of innochecksum for bash: source this file.
_innochecksum() {
    local word=${COMP_WORDS[COMP_CWORD]} before=${COMP_WORDS[COMP_CWORD - 1]}
    local options='-c --count -s --start-page -e --end-page -p --page -a --allow-mismatches -S --page-type-summary -h --help -V --version'
    case $before in
        -s | --start-page | -e | --end-page | -p | --page | -a | --allow-mismatches)
            COMPREPLY=()
            return
            ;;
    esac
    if [[ $word == -* ]]; then
        mapfile -t COMPREPLY < <(compgen -W "$options" -- "$word")
    else
        mapfile -t COMPREPLY < <(compgen -f -- "$word")
    fi
}
complete -o filenames -F _innochecksum innochecksum
