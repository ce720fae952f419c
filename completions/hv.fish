# Completion of hv for fish: its orders, its options, and sources.
complete -c hv -f -n __fish_use_subcommand -a check -d 'judge a source'
complete -c hv -f -n __fish_use_subcommand -a show -d 'print a program'
complete -c hv -f -n __fish_use_subcommand -a run -d 'run a program'
complete -c hv -f -n __fish_use_subcommand -a plain -d 'run by the copying meaning'
complete -c hv -n '__fish_seen_subcommand_from run plain' -x -l steps -d 'the steps that may be used'
complete -c hv -n '__fish_seen_subcommand_from run plain' -f -l trace -d 'a line for the task'
complete -c hv -n '__fish_seen_subcommand_from check show run plain' -F -a '*.hv'
