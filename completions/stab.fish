# The completions of stab for fish.
complete -c stab -f
complete -c stab -n __fish_use_subcommand -a link -d 'reads a link job and prints the text of the link after its events'
complete -c stab -n '__fish_seen_subcommand_from link' -l trace
complete -c stab -n '__fish_seen_subcommand_from link' -F
complete -c stab -n __fish_use_subcommand -a tree -d 'reads a job and prints the text of the whole tree after its schedule'
complete -c stab -n '__fish_seen_subcommand_from tree' -F
complete -c stab -n __fish_use_subcommand -a run -d 'reads a job, runs it with one worker for each node, and prints the report'
complete -c stab -n '__fish_seen_subcommand_from run' -l words
complete -c stab -n '__fish_seen_subcommand_from run' -l mixed
complete -c stab -n '__fish_seen_subcommand_from run' -F
