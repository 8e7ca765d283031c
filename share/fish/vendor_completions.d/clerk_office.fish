# Completion of clerk_office for fish; tools/manual.py writes it from what --help says.
complete -c clerk_office -l clerks -x -d 'How many clerks there are, at most 64 [default: 1]'
complete -c clerk_office -l journal -x -d 'How many entries the journal takes, at most 1000000 [default: 100000]'
complete -c clerk_office -s h -l help -d 'Print help'
complete -c clerk_office -s V -l version -d 'Print version'
