# Completion of the words of kahn_explain in fish.

source (status dirname)/kahn.fish
complete -c kahn_explain -k -a '(__fish_complete_suffix .kahn)'
complete -c kahn_explain -l input -r -d 'file of the input text'
complete -c kahn_explain -l workers -x -d 'number of threads'
complete -c kahn_explain -l quantum -x -d 'events that a process does at a time'
complete -c kahn_explain -l bound -x -d 'events after which the run is stopped'
complete -c kahn_explain -l all -d 'tell each process that has not ended'
complete -c kahn_explain -l strict -d 'refuse a program with a warning'
complete -c kahn_explain -l trace -d 'write all values of all channels'
complete -c kahn_explain -l channels -d 'write how many values each channel carried'
complete -c kahn_explain -l check -d 'look at the texts alone, and run nothing'
complete -c kahn_explain -l needs -x -a '(__kahn_channels)' -d 'write what values need'
complete -c kahn_explain -l wakes -x -a '(__kahn_channels "input ")' -d 'write which values first need one of an input'
complete -c kahn_explain -l json -d 'look at the texts alone, and write notes as data'
complete -c kahn_explain -s h -l help -d 'print help'
complete -c kahn_explain -s V -l version -d 'print version'
