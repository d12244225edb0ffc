# Completion of gafd_view for bash: share/bash-completion/completions/gafd_view.
_gafd_view() {
    local cur=${COMP_WORDS[COMP_CWORD]} before=${COMP_WORDS[COMP_CWORD - 1]}
    local IFS=$'\n'
    COMPREPLY=()
    case $before:$cur in
    --port:* | --host:*) ;;
    --symbols:* | --store:*) COMPREPLY=($(compgen -d -- "$cur")) ;;
    *:-*) IFS=' ' && COMPREPLY=($(compgen -W '--port --symbols --store --look --host --version --help' -- "$cur")) ;;
    *) COMPREPLY=($(compgen -d -- "$cur") $(compgen -f -X '!*.sch' -- "$cur")) ;;
    esac
}
complete -o filenames -F _gafd_view gafd_view
