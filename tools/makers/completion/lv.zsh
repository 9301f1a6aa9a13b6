#compdef lv
# Completes the words of lv for zsh. Written by tools/makers/command_tables.py.
_lv() {
    local -a commands
    commands=(
        'inspect:prints, message by message, what a stream holds'
        'show:prints the rows of a stream, as a table or as CSV'
        'recast:writes the canonical stream of the table that a stream holds'
        'check:checks a configuration of tables, feeds and views'
        'run:runs a script over the tables of a configuration'
        'live:runs lines of standard input as they come, and answers each at once'
    )
    if (( CURRENT == 2 )); then
        _describe command commands
        return
    fi
    case $words[2]:$CURRENT in
        show:*) _arguments '--rows[prints the first N rows alone]:number' '--csv[prints CSV]' '2:file:_files' ;;
        inspect:3 | recast:3 | recast:4 | check:3 | run:3 | run:4 | live:3) _files ;;
    esac
}
_lv "$@"
