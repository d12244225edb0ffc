# Completion of gafd_view for fish: share/fish/vendor_completions.d/gafd_view.fish.
function __gafd_view_sheets
    for file in (__fish_complete_path (commandline -ct) | string replace -r '\t.*' '')
        string match -qr '/$|\.sch$' -- $file; and echo $file
    end
end
complete -c gafd_view -f -a '(__gafd_view_sheets)'
complete -c gafd_view -l port -x -d 'of the page'
complete -c gafd_view -l symbols -x -a '(__fish_complete_directories)' -d 'where symbols are looked for'
complete -c gafd_view -l store -x -a '(__fish_complete_directories)' -d 'of the server, for the history'
complete -c gafd_view -l look -d 'hands on no edits'
complete -c gafd_view -l host -x -d 'one more name of the page'
complete -c gafd_view -l version -d 'the version'
complete -c gafd_view -l help -d 'all of it'
