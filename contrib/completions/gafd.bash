# Completion of gafd for bash: share/bash-completion/completions/gafd.
_gafd_files() {
    local IFS=$'\n'
    COMPREPLY+=($(compgen -d -- "$cur") $(compgen -f -X "!*.@($1)" -- "$cur"))
}

_gafd() {
    local cur=${COMP_WORDS[COMP_CWORD]} before=${COMP_WORDS[COMP_CWORD - 1]}
    local commands='netlist drc export symcheck renumber table fill serve store'
    local restored=$(shopt -p extglob)
    shopt -s extglob
    COMPREPLY=()
    # The shell parts a word at `=`.
    [ "$before" != = ] || before=${COMP_WORDS[COMP_CWORD - 2]}
    [ "$cur" != = ] || cur=
    case $COMP_CWORD:${COMP_WORDS[1]}:$before:$cur in
    1:*) COMPREPLY=($(compgen -W "$commands help --version" -- "$cur")) ;;
    2:help:*) COMPREPLY=($(compgen -W "$commands" -- "$cur")) ;;
    *:netlist:--form:*) COMPREPLY=($(compgen -W 'list tango pcb bom spice' -- "$cur")) ;;
    *:netlist:*:-*) COMPREPLY=($(compgen -W '--form' -- "$cur")) ;;
    *:drc:--matrix:*) _gafd_files toml ;;
    *:drc:*:-*) COMPREPLY=($(compgen -W '--matrix' -- "$cur")) ;;
    *:netlist:* | *:drc:* | *:renumber:* | 2:table:* | 2:fill:*) _gafd_files sch ;;
    *:export:*) _gafd_files 'sch|sym' ;;
    *:symcheck:*) _gafd_files sym ;;
    3:fill:*) _gafd_files csv ;;
    *:serve:--host:*) COMPREPLY=($(compgen -W 'localhost' -- "$cur")) ;;
    *:serve:--who:*) COMPREPLY=($(compgen -W 'X-Remote-User' -- "$cur")) ;;
    *:serve:*:-*) COMPREPLY=($(compgen -W '--host --who' -- "$cur")) ;;
    2:serve:*) COMPREPLY=($(compgen -W '127.0.0.1:8080 unix:' -- "$cur")) ;;
    3:serve:* | *:store:*) _gafd_files db ;;
    esac
    $restored
}
complete -o filenames -F _gafd gafd
