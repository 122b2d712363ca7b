# Completion of wfserve for fish: lay it into ~/.config/fish/completions.
complete -c wfserve -f
complete -c wfserve -n __fish_use_subcommand -a serve -d 'answer a stream of requests'
complete -c wfserve -n __fish_use_subcommand -a plan -d 'say whether a plan is valid'
complete -c wfserve -n __fish_use_subcommand -a solve -d 'find a plan for each workflow, or show that there is none'
complete -c wfserve -n __fish_use_subcommand -a resilience -d 'say whether a workflow can be done whoever is absent'
complete -c wfserve -n __fish_use_subcommand -a cnf -d 'write clauses for a SAT solver, or read a model of them'
complete -c wfserve -n __fish_use_subcommand -a resume -d 'take up an earlier session and go on'
complete -c wfserve -n __fish_use_subcommand -a show -d 'write the policy as it was understood'
complete -c wfserve -n __fish_use_subcommand -a audit -d 'say whether a transcript is legal'
complete -c wfserve -n __fish_use_subcommand -a trial -d 'serve a generated session'

# whether so many words stand before the one that is completed
function __wfserve_at -a count
    test (count (commandline -opc)) -eq $count
end

# the workflows of the policy
function __wfserve_flows
    set -l words (commandline -opc)
    sed -n 's/^\[flows\.\([a-z0-9_]*\).*/\1/p' $words[3] 2>/dev/null
end

complete -c wfserve -n '__fish_seen_subcommand_from serve audit resume' -F
complete -c wfserve -n '__fish_seen_subcommand_from plan solve resilience cnf show; and __wfserve_at 2' -F
complete -c wfserve -n '__fish_seen_subcommand_from plan resilience cnf; and __wfserve_at 3' -a '(__wfserve_flows)'
complete -c wfserve -n '__fish_seen_subcommand_from cnf; and __wfserve_at 4' -F
complete -c wfserve -n '__fish_seen_subcommand_from resilience; and __wfserve_at 4' -a '0 1 2 3'
complete -c wfserve -n '__fish_seen_subcommand_from serve audit resume' -l lanes -x -a '1 2 3 4 5 6 7 8' -d 'number of lanes'
complete -c wfserve -n '__fish_seen_subcommand_from serve audit resume' -l rounds -x -a '0 1 2 3 4 5 6 7 8' -d 'tries beside other lanes'
