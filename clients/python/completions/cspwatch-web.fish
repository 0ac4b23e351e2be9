# Completion for fish. Copy this file to ~/.config/fish/completions.
complete -c cspwatch-web -s h -l help -d 'print help'
complete -c cspwatch-web -l log -r -d 'the log of the service'
complete -c cspwatch-web -l listen -x -a '127.0.0.1:8080' -d 'where to listen'
complete -c cspwatch-web -l program -r -d 'the program cspwatch'
