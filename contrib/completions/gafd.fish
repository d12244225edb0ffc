# Completion of gafd for fish: share/fish/vendor_completions.d/gafd.fish.
function __gafd_files
    for file in (__fish_complete_path (commandline -ct) | string replace -r '\t.*' '')
        string match -qr '/$|\.('$argv[1]')$' -- $file; and echo $file
    end
end
function __gafd_command
    set -l words (commandline -opc)
    contains -- "$words[2]" $argv
end
function __gafd_word
    set -l words (commandline -opc)
    test (count $words) -eq $argv[1]
end
complete -c gafd -f
complete -c gafd -n '__gafd_word 1' -l version -d 'the version'
for command in netlist:'the parts and the nets of sheets' drc:'what is wrong in sheets' \
    export:'the canonical text of a sheet or symbol' symcheck:'what is wrong in symbols' \
    renumber:'give each part without a number the least free one' table:'the attributes of a sheet as CSV' \
    fill:'put such a table back into the sheet' serve:'keep a board for several engineers' \
    store:'put its history into a database' help:'what a command does'
    set -l parts (string split -m 1 : $command)
    complete -c gafd -n '__gafd_word 1' -a $parts[1] -d $parts[2]
    test $parts[1] = help; or complete -c gafd -n '__gafd_command help; and __gafd_word 2' -a $parts[1] -d $parts[2]
end
complete -c gafd -n '__gafd_command netlist' -l form -x -a 'list tango pcb bom spice' -d 'the form'
complete -c gafd -n '__gafd_command drc' -l matrix -x -a '(__gafd_files toml)' -d 'which kinds of pins may meet'
complete -c gafd -n '__gafd_command netlist drc renumber' -a '(__gafd_files sch)'
complete -c gafd -n '__gafd_command table fill; and __gafd_word 2' -a '(__gafd_files sch)'
complete -c gafd -n '__gafd_command export' -a '(__gafd_files "sch|sym")'
complete -c gafd -n '__gafd_command symcheck' -a '(__gafd_files sym)'
complete -c gafd -n '__gafd_command fill; and __gafd_word 3' -a '(__gafd_files csv)'
complete -c gafd -n '__gafd_command serve' -l host -x -a localhost -d 'a name that is answered'
complete -c gafd -n '__gafd_command serve' -l who -x -a X-Remote-User -d 'the header that names the user'
complete -c gafd -n '__gafd_command serve; and __gafd_word 2' -a '127.0.0.1:8080 unix:'
complete -c gafd -n '__gafd_command serve; and __gafd_word 3' -F
complete -c gafd -n '__gafd_command store' -F
