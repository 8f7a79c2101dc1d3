# Completions of rbac for fish. tests/commands compares them with the sources of the command line.

complete -c rbac -n __fish_use_subcommand -f
complete -c rbac -n __fish_use_subcommand -a init -d 'Create an empty office'
complete -c rbac -n __fish_use_subcommand -a replay -d 'Answer the request lines of standard input'
complete -c rbac -n __fish_use_subcommand -a serve -d 'Answer requests over HTTP on 127.0.0.1'
complete -c rbac -n __fish_use_subcommand -a import -d 'Assign users to roles, as a CSV file lists them'
complete -c rbac -n __fish_use_subcommand -a export -d 'Write the assignments as CSV'
complete -c rbac -n __fish_use_subcommand -a report -d 'Write how many users and permissions each role has'
complete -c rbac -n __fish_use_subcommand -a check -d 'Check that the file holds a good office'
complete -c rbac -n __fish_use_subcommand -a migrate -d 'Migrate an office of version 1 to version 2'
complete -c rbac -n __fish_use_subcommand -a help -d 'Print the commands'

complete -c rbac -s h -l help -d 'Print help'
complete -c rbac -n __fish_use_subcommand -s V -l version -d 'Print version'
complete -c rbac -n '__fish_seen_subcommand_from replay' -l memory -d 'Use a new office in memory'
complete -c rbac -n '__fish_seen_subcommand_from serve' -l port -x -d 'The port of the server'
complete -c rbac -n '__fish_seen_subcommand_from serve' -l limit -x -d 'The number of connections'
complete -c rbac -n '__fish_seen_subcommand_from help' -f -a 'init replay serve import export report check migrate help'
