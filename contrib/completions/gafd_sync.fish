# Completion of gafd_sync for fish: share/fish/vendor_completions.d/gafd_sync.fish.
set -l commands pull push diff undo revert renumber table fill sheets ids at copy history backup check
function __gafd_sync_files
    for file in *
        string match -qr '\.('$argv[1]')$' -- $file; and echo $file
    end
end
function __gafd_sync_tables
    for file in (__fish_complete_path (commandline -ct) | string replace -r '\t.*' '')
        string match -qr '/$|\.(sch|csv|tsv)$' -- $file; and echo $file
    end
end
complete -c gafd_sync -f
set -l none "not __fish_seen_subcommand_from $commands"
complete -c gafd_sync -n $none -l server -x -d 'the server'
complete -c gafd_sync -n $none -l session -x -d 'who you are'
complete -c gafd_sync -n $none -l view -x -d 'a gafd_view of the board'
complete -c gafd_sync -n $none -l version -d 'the version'
complete -c gafd_sync -n $none -l help -d 'all of it'
for command in pull:'bring what others changed into the files' push:'send what was drawn' \
    diff:'what push would send, and pull bring' undo:'take the last push back' \
    revert:'send the contrary of an edit' renumber:'give each part without a number one' \
    table:'the attributes of all parts as CSV' fill:'send what was changed in such a table' \
    sheets:'the sheets of the server' ids:'the ids of a sheet' at:'the board as it was' \
    copy:'put all into an empty server' history:'the edits of a store' \
    backup:'copy the new rows of a store' check:'whether a store is whole'
    set -l parts (string split -m 1 : $command)
    complete -c gafd_sync -n $none -a $parts[1] -d $parts[2]
end
complete -c gafd_sync -n '__fish_seen_subcommand_from pull' -l mine -d 'yours stands'
complete -c gafd_sync -n '__fish_seen_subcommand_from pull' -l theirs -d 'theirs stands'
complete -c gafd_sync -n '__fish_seen_subcommand_from pull' -l over -d 'all as the server has it'
complete -c gafd_sync -n '__fish_seen_subcommand_from pull' -l lepton -d 'a lepton.conf too'
complete -c gafd_sync -n '__fish_seen_subcommand_from push' -l over -d 'the server as the files are'
complete -c gafd_sync -n '__fish_seen_subcommand_from push' -l copy -d 'also what another sheet has'
complete -c gafd_sync -n '__fish_seen_subcommand_from fill' -l all -d 'also what was spelled anew'
complete -c gafd_sync -n '__fish_seen_subcommand_from at' -l store -r -F -d 'a store, or a copy'
complete -c gafd_sync -n '__fish_seen_subcommand_from pull push diff' -a '(__gafd_sync_files "sch|sym")'
complete -c gafd_sync -n '__fish_seen_subcommand_from table ids' -a '(__gafd_sync_files sch)'
complete -c gafd_sync -n '__fish_seen_subcommand_from fill' -a '(__gafd_sync_tables)'
complete -c gafd_sync -n '__fish_seen_subcommand_from at revert history backup check' -F
