# Completion of gafd_sync for bash: share/bash-completion/completions/gafd_sync.
_gafd_sync_files() {
    local IFS=$'\n'
    COMPREPLY+=($(compgen -f -X "!*.@($1)" -- "$cur"))
}

# Files that may lie elsewhere, and the folders there.
_gafd_sync_paths() {
    local IFS=$'\n'
    _gafd_sync_files "$1"
    COMPREPLY+=($(compgen -d -- "$cur"))
}

# The command of the line: the first word that is no option, and no value of one.
_gafd_sync_command() {
    command=
    local at
    for ((at = 1; at < COMP_CWORD; at++)); do
        case ${COMP_WORDS[at]} in
        --server | --session | --view)
            ((at++))
            # The shell parts an address at its colons.
            while [ "${COMP_WORDS[at + 1]}" = : ]; do ((at += 2)); done ;;
        -*) ;;
        *) command=${COMP_WORDS[at]} && return ;;
        esac
    done
}

_gafd_sync() {
    local cur=${COMP_WORDS[COMP_CWORD]} before=${COMP_WORDS[COMP_CWORD - 1]} command
    local commands='pull push diff undo revert renumber table fill sheets ids at copy history backup check'
    local restored=$(shopt -p extglob)
    shopt -s extglob
    COMPREPLY=()
    _gafd_sync_command
    case $command:$before:$cur in
    :--server:* | :--session:* | :--view:*) ;;
    :*:-*) COMPREPLY=($(compgen -W '--server --session --view --version --help' -- "$cur")) ;;
    :*) COMPREPLY=($(compgen -W "$commands" -- "$cur")) ;;
    pull:*:-*) COMPREPLY=($(compgen -W '--mine --theirs --over --lepton' -- "$cur")) ;;
    push:*:-*) COMPREPLY=($(compgen -W '--over --copy' -- "$cur")) ;;
    fill:*:-*) COMPREPLY=($(compgen -W '--all' -- "$cur")) ;;
    at:*:-*) COMPREPLY=($(compgen -W '--store' -- "$cur")) ;;
    pull:* | push:* | diff:*) _gafd_sync_files 'sch|sym' ;;
    table:* | ids:*) _gafd_sync_files sch ;;
    fill:*) _gafd_sync_paths 'sch|csv|tsv' ;;
    at:* | revert:* | history:* | backup:* | check:*) _gafd_sync_paths db ;;
    esac
    $restored
}
complete -o filenames -F _gafd_sync gafd_sync
