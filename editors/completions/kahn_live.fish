# Completion of the words of kahn_live in fish.

source (status dirname)/kahn.fish
complete -c kahn_live -k -a '(__fish_complete_suffix .kahn)'
complete -c kahn_live -l quantum -x -d 'events that a process does at a time'
complete -c kahn_live -l step -x -d 'limit of events after each line'
complete -c kahn_live -l watch -x -a '(__kahn_channels)' -d 'one more channel to show'
complete -c kahn_live -l keep-going -d 'leave the status 0 even if lines were refused'
complete -c kahn_live -l strict -d 'end with 8 if a process has a fault, and with 7 if processes wait on one another'
complete -c kahn_live -l at-end -x -a '(__kahn_channels "input ")=' -d 'a line that is fed when the input has ended'
complete -c kahn_live -l in -x -a '(__fish_complete_list , "__kahn_channels \"input \"")' -d 'the channel whose bare values are read'
complete -c kahn_live -l out -x -a '(__fish_complete_list , __kahn_channels)' -d 'the channels whose bare values are written'
complete -c kahn_live -l plain -x -a '(__fish_complete_list , __kahn_channels)' -d 'short for --in INPUT --out OUTPUT'
complete -c kahn_live -s h -l help -d 'print help'
complete -c kahn_live -s V -l version -d 'print version'
