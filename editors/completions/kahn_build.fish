# Completion of the words of kahn_build in fish.

source (status dirname)/kahn.fish
complete -c kahn_build -k -a '(__fish_complete_suffix .kahn)'
complete -c kahn_build -l set -x -a '(__kahn_values)' -d 'value argument of a process or of an instance'
complete -c kahn_build -s h -l help -d 'print help'
complete -c kahn_build -s V -l version -d 'print version'
