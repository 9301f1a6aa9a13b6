# Completes the words of lv for fish. Written by tools/makers/command_tables.py.
function __lv_is_at
    # Whether the word being written is of this number, behind one of these commands.
    set -l words (commandline -opc)
    test (count $words) -eq $argv[1]; and contains -- $words[2] $argv[2..]
end
complete -c lv -f
complete -c lv -n __fish_use_subcommand -a inspect -d 'prints, message by message, what a stream holds'
complete -c lv -n __fish_use_subcommand -a show -d 'prints the rows of a stream, as a table or as CSV'
complete -c lv -n __fish_use_subcommand -a recast -d 'writes the canonical stream of the table that a stream holds'
complete -c lv -n __fish_use_subcommand -a check -d 'checks a configuration of tables, feeds and views'
complete -c lv -n __fish_use_subcommand -a run -d 'runs a script over the tables of a configuration'
complete -c lv -n __fish_use_subcommand -a live -d 'runs lines of standard input as they come, and answers each at once'
complete -c lv -n '__lv_is_at 2 inspect show recast check run live' -F
complete -c lv -n '__lv_is_at 3 recast run' -F
complete -c lv -n '__fish_seen_subcommand_from show' -l rows -x -d 'prints the first N rows alone'
complete -c lv -n '__fish_seen_subcommand_from show' -l csv -d 'prints CSV'
