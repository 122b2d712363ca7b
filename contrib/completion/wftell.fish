# Completion of wftell for fish: lay it into ~/.config/fish/completions.
complete -c wftell -f
complete -c wftell -n __fish_use_subcommand -a policy -d 'tell what is wrong with a policy, or probably not meant'
complete -c wftell -n __fish_use_subcommand -a why -d 'tell a plan of a workflow, or why it has none'
complete -c wftell -n __fish_use_subcommand -a log -d 'tell a session, a line for each entry'
complete -c wftell -n __fish_use_subcommand -a entry -d 'tell why an entry of a transcript was answered so'
complete -c wftell -n __fish_use_subcommand -a now -d 'write the policy that is in force after a session'
complete -c wftell -n __fish_use_subcommand -a page -d 'write a case as a page of HTML'
complete -c wftell -n __fish_use_subcommand -l help -d 'how it is called'
complete -c wftell -n __fish_use_subcommand -l version -d 'the version'

# whether so many words stand before the one that is completed
function __wftell_at -a count
    test (count (commandline -opc)) -eq $count
end

# the workflows of the policy
function __wftell_flows
    set -l words (commandline -opc)
    sed -n 's/^\[flows\.\([a-z0-9_]*\).*/\1/p' $words[3] 2>/dev/null
end

# the files of a session
for at in 2 3 4
    complete -c wftell -n "__fish_seen_subcommand_from log entry now page; and __wftell_at $at" -F
end
complete -c wftell -n '__fish_seen_subcommand_from log entry now page' -l lanes -x -a '(seq 1 8)' -d 'the number of lanes'
complete -c wftell -n '__fish_seen_subcommand_from log entry now page' -l rounds -x -a '(seq 0 8)' -d 'the number of rounds'
complete -c wftell -n '__fish_seen_subcommand_from policy why; and __wftell_at 2' -F
complete -c wftell -n '__fish_seen_subcommand_from why; and __wftell_at 3' -a '(__wftell_flows)'
