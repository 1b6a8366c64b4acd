# Completion of the words of kahn_draw in fish.

source (status dirname)/kahn.fish
complete -c kahn_draw -k -a '(__fish_complete_suffix .kahn)'
complete -c kahn_draw -l input -r -d 'file of the input text of a run that the picture shows'
complete -c kahn_draw -l bound -x -d 'events after which the run is stopped'
complete -c kahn_draw -s h -l help -d 'print help'
complete -c kahn_draw -s V -l version -d 'print version'
