# Completion of streams for fish. `make install` puts it into share/fish/vendor_completions.d.
complete -c streams -f
complete -c streams -n 'not __fish_contains_opt gen' -a '(for file in *; string match -r "^[A-Za-z0-9][A-Za-z0-9._-]*\.blue\$" -- $file; end)'
complete -c streams -n 'not __fish_contains_opt replay' -l workers -x -a '1 2 4 8 16 32 64' -d 'the number of workers, 1 to 64'
complete -c streams -l turns -x -a '1000 1000000 100000000 4000000000' -d 'the most units that the run uses'
complete -c streams -l trace -r -F -d 'write the choices of the stages to a file'
complete -c streams -n 'not __fish_contains_opt workers gen' -l replay -r -F -d 'repeat the choices of an earlier trace'
complete -c streams -n 'not __fish_contains_opt replay' -l gen -x -a '4 1000 100000 10000000' -d 'write lines of numbers and a blueprint, and run it'
