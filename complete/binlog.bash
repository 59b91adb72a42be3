# Completion of binlog for bash: source this file.
_binlog() {
    local word=${COMP_WORDS[COMP_CWORD]} before=${COMP_WORDS[COMP_CWORD - 1]}
    local options='--key-file --filekey --digest --hex -h --help -V --version'
    case $before in
        --filekey)
            COMPREPLY=()
            return
            ;;
        --digest)
            mapfile -t COMPREPLY < <(compgen -W 'sha1 sha256' -- "$word")
            return
            ;;
    esac
    if [[ $word == -* ]]; then
        mapfile -t COMPREPLY < <(compgen -W "$options" -- "$word")
    else
        mapfile -t COMPREPLY < <(compgen -f -- "$word")
    fi
}
complete -o filenames -F _binlog binlog
