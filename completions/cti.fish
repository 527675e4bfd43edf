# Completion of cti for fish.
complete -c cti -n __fish_use_subcommand -f -a infer -d 'Find the modes of a program'
complete -c cti -n __fish_use_subcommand -f -a check -d 'Check a certificate of a program'
complete -c cti -n __fish_use_subcommand -f -a run -d 'Run a query of a program'
complete -c cti -n __fish_use_subcommand -f -a gen -d 'Infer a generated program'
complete -c cti -n __fish_use_subcommand -f -a lex -d 'Find the modes of a program by lists of mappings'
complete -c cti -n __fish_use_subcommand -f -a loop -d 'Look for a loop of a query'
complete -c cti -n __fish_use_subcommand -f -a session -d 'Do the edits of a file'
complete -c cti -n '__fish_seen_subcommand_from gen' -f
complete -c cti -n '__fish_seen_subcommand_from infer check run lex loop session' -F
complete -c cti -n '__fish_seen_subcommand_from run' -l steps -x -d 'Look at so many derivations'
complete -c cti -n '__fish_seen_subcommand_from infer' -l norm -x -a 'term list' -d 'Measure terms so'
complete -c cti -n '__fish_seen_subcommand_from loop' -l depth -x -d 'Look at derivations of so many clauses'
