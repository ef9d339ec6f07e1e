# Completions of cilsem for fish.

complete -c cilsem -f
complete -c cilsem -n __fish_use_subcommand -a session -d 'Answer the script on standard input'
complete -c cilsem -n __fish_use_subcommand -a compile -d 'Compile CIL files together'
complete -c cilsem -n __fish_use_subcommand -a project -d 'Print or write what CIL files are compiled as with --foreign names'
complete -c cilsem -n __fish_use_subcommand -a help -d 'Print help'
complete -c cilsem -n __fish_use_subcommand -s V -l version -d 'Print the version'
complete -c cilsem -s h -l help -d 'Print help'
complete -c cilsem -n '__fish_seen_subcommand_from compile' -l violations -d 'Print the violations of neverallow rules'
complete -c cilsem -n '__fish_seen_subcommand_from compile' -l foreign -x -a names -d 'Take statements outside the language by their names alone'
complete -c cilsem -n '__fish_seen_subcommand_from project' -l list -d 'Print how many statements of each kind are taken by their names'
complete -c cilsem -n '__fish_seen_subcommand_from project' -s o -l output -x -a '(__fish_complete_directories)' -d 'Write each projection into a folder'
complete -c cilsem -n '__fish_seen_subcommand_from compile project' -l booleans -x -a 'default both' -d 'Branches that are taken'
complete -c cilsem -n '__fish_seen_subcommand_from compile project' -k -a '(__fish_complete_suffix .cil)'
complete -c cilsem -n '__fish_seen_subcommand_from help' -a 'session compile project'
