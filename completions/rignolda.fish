# The completions of rignolda for fish.
complete -c rignolda -f
complete -c rignolda -n __fish_use_subcommand -l help -d 'Print help'
complete -c rignolda -n __fish_use_subcommand -l version -d 'Print version'
complete -c rignolda -n __fish_use_subcommand -a bounds -d 'Says what the laws allow each node of a job: strays, and missing items'
complete -c rignolda -n '__fish_seen_subcommand_from bounds' -l help -d 'Print help'
complete -c rignolda -n '__fish_seen_subcommand_from bounds' -F
complete -c rignolda -n __fish_use_subcommand -a check -d 'Says whether a report of a job obeys the laws, or which part of it is broken'
complete -c rignolda -n '__fish_seen_subcommand_from check' -l help -d 'Print help'
complete -c rignolda -n '__fish_seen_subcommand_from check' -F
complete -c rignolda -n __fish_use_subcommand -a draw -d 'Draws the run of a link job, a schedule or a scenario, a line for each event'
complete -c rignolda -n '__fish_seen_subcommand_from draw' -l svg -d 'Draw a picture instead, as one file of SVG'
complete -c rignolda -n '__fish_seen_subcommand_from draw' -l help -d 'Print help'
complete -c rignolda -n '__fish_seen_subcommand_from draw' -F
complete -c rignolda -n __fish_use_subcommand -a explain -d 'Says what is wrong with a link job or a job of a tree, and where'
complete -c rignolda -n '__fish_seen_subcommand_from explain' -l help -d 'Print help'
complete -c rignolda -n '__fish_seen_subcommand_from explain' -F
complete -c rignolda -n __fish_use_subcommand -a judge -d 'Says whether logs since a fault obey the laws, or at which node they do not'
complete -c rignolda -n '__fish_seen_subcommand_from judge' -l help -d 'Print help'
complete -c rignolda -n '__fish_seen_subcommand_from judge' -F
complete -c rignolda -n __fish_use_subcommand -a random -d 'Prints a job of a tree with random garbage in it, the same for the same options'
complete -c rignolda -n '__fish_seen_subcommand_from random' -l seed -x -d 'Where the generator begins [default: 1]'
complete -c rignolda -n '__fish_seen_subcommand_from random' -l items -x -d 'How many items the root publishes, up to 10000 [default: 10]'
complete -c rignolda -n '__fish_seen_subcommand_from random' -l turns -x -d 'How many turns each worker of a run has, 1 to 1000000 [default: 100000]'
complete -c rignolda -n '__fish_seen_subcommand_from random' -l schedule -x -d 'How many steps the schedule has, up to 500000 [default: 200]'
complete -c rignolda -n '__fish_seen_subcommand_from random' -l nodes -x -d 'How many nodes the tree has, 1 to 64 [default: 8]'
complete -c rignolda -n '__fish_seen_subcommand_from random' -l capacity -x -d 'The greatest capacity of a link, 1 to 64 [default: 2]'
complete -c rignolda -n '__fish_seen_subcommand_from random' -l loss -x -d 'Of a thousand sent messages, how many a script drops [default: 100]'
complete -c rignolda -n '__fish_seen_subcommand_from random' -l repeat -x -d 'Of a thousand received messages, how many a script keeps [default: 100]'
complete -c rignolda -n '__fish_seen_subcommand_from random' -l hold -x -d 'How many items a node may begin with, up to 64 [default: 2]'
complete -c rignolda -n '__fish_seen_subcommand_from random' -l labels -x -d 'How many labels each link has; drawn for each link where it is left out'
complete -c rignolda -n '__fish_seen_subcommand_from random' -l help -d 'Print help'
complete -c rignolda -n __fish_use_subcommand -a scenario -d 'Says what a scenario of acts, rounds and faults makes of a tree'
complete -c rignolda -n '__fish_seen_subcommand_from scenario' -l help -d 'Print help'
complete -c rignolda -n '__fish_seen_subcommand_from scenario' -F
complete -c rignolda -n __fish_use_subcommand -a worst -d 'Prints a link job that delivers as many strays and misses as many items as can be'
complete -c rignolda -n '__fish_seen_subcommand_from worst' -l capacity -x -d 'How many entries each queue holds, 1 to 64'
complete -c rignolda -n '__fish_seen_subcommand_from worst' -l labels -x -d 'How many labels there are, from twice the capacity and two to 1000'
complete -c rignolda -n '__fish_seen_subcommand_from worst' -l help -d 'Print help'
complete -c rignolda -n __fish_use_subcommand -a help -d 'Print this message or the help of the given subcommand(s)'
