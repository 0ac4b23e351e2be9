# Completion for fish. Copy this file to ~/.config/fish/completions.
complete -c cspwatch-metrics -s h -l help -d 'print help'
complete -c cspwatch-metrics -l log -r -d 'the log of the service'
complete -c cspwatch-metrics -l listen -x -a '127.0.0.1:9180' -d 'where to listen'
complete -c cspwatch-metrics -l program -r -d 'the program cspwatch'
