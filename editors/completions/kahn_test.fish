# Completion of the words of kahn_test in fish.

source (status dirname)/kahn.fish
complete -c kahn_test -k -a '(__fish_complete_suffix .kahn)'
complete -c kahn_test -l update -d 'write the values of the runs to the files'
complete -c kahn_test -l values -d 'print the values of one run'
complete -c kahn_test -l lax -d 'accept programs with warnings'
complete -c kahn_test -l bound -x -d 'events after which a run is stopped'
complete -c kahn_test -l junit -r -d 'file for the results, as JUnit XML'
complete -c kahn_test -s h -l help -d 'print help'
complete -c kahn_test -s V -l version -d 'print version'
