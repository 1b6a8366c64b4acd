# Completion of kahn in fish; and what the completions of its other programs and scripts use.

# The programs on the line in one line, without comments and commas.
function __kahn_text
    cat -- /dev/null (string match -- '*.kahn' (commandline -opc)) 2>/dev/null | LC_ALL=C tr -s '\r\n\t ,' ' ' | LC_ALL=C sed -E 's/\bcomment\b[^;]*;?//gI'
end

# Their channels: `input `, `output ` or all.
function __kahn_channels --argument-names sort
    __kahn_text | LC_ALL=C grep -oiP "\b$sort"'channel \K[^;]*' | string split --no-empty ' '
end

# Value arguments of their processes, such as delay.N.
function __kahn_values
    __kahn_text | LC_ALL=C grep -oiP '\bprocess \K\w+ ?\([^)]*' | LC_ALL=C sed -E 's/\b(integer|logical) (in|out) [^;]*//gI; s/\b(integer|logical)\b//gI' \
        | awk -F '[(; ]+' '{ for (at = 2; at <= NF; at++) if ($at != "") print $1 "." $at "=" }'
end

complete -c kahn -k -a '(__fish_complete_suffix .kahn)'
complete -c kahn -l input -r -d 'file of the input text'
complete -c kahn -l workers -x -d 'number of threads'
complete -c kahn -l quantum -x -d 'events that a process does at a time'
complete -c kahn -l bound -x -d 'events after which the run is stopped'
complete -c kahn -l watch -x -a '(__kahn_channels)' -d 'one more channel to report'
complete -c kahn -s h -l help -d 'print help'
complete -c kahn -s V -l version -d 'print version'
