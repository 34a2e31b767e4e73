# Completion of blueprint for fish. `make install` puts it into share/fish/vendor_completions.d.
complete -c blueprint -f
complete -c blueprint -n __fish_use_subcommand -a check -d 'print the first fault, or nothing'
complete -c blueprint -n __fish_use_subcommand -a fmt -d 'print the canonical text'
complete -c blueprint -n __fish_use_subcommand -a draw -d 'print the graph in the DOT language'
complete -c blueprint -n __fish_use_subcommand -a explain -d 'print a report from standard input in words'
complete -c blueprint -n __fish_use_subcommand -a turns -d 'print how many units are enough'
complete -c blueprint -n __fish_use_subcommand -a row -d 'print the blueprint of a row'
complete -c blueprint -l help -s h -d 'print help'
complete -c blueprint -l version -s V -d 'print the version, and what is proved'
complete -c blueprint -n '__fish_seen_subcommand_from check' -l files -d 'look for the files of the sources'
complete -c blueprint -n '__fish_seen_subcommand_from check fmt draw explain turns' -a '(for file in *; string match -r "^[A-Za-z0-9][A-Za-z0-9._-]*\.blue\$" -- $file; end)'
