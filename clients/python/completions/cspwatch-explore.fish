# Completion for fish. Copy this file to ~/.config/fish/completions.
complete -c cspwatch-explore -s h -l help -d 'print help'
complete -c cspwatch-explore -l large -d 'with the limits for large systems'
complete -c cspwatch-explore -l program -r -d 'the program cspwatch'
