# Completion of the arguments of nagsched and nagsched-monitor, for bash.
_nagsched() {
    local word=${COMP_WORDS[COMP_CWORD]} subcommand=${COMP_WORDS[1]:-}
    local -A options=([run]="--start --resume --json --help" [live]="--start --resume --json --explain --help" [check]="--start --line --resume --help" [drill]="--start --workers --room --help" [schema]="--help")
    if [ "$COMP_CWORD" -eq 1 ]; then
        mapfile -t COMPREPLY < <(compgen -W "${!options[*]} help --help --version" -- "$word")
    else
        mapfile -t COMPREPLY < <(compgen -W "${options[$subcommand]:-}" -- "$word")
    fi
}
_nagsched_monitor() {
    local word=${COMP_WORDS[COMP_CWORD]}
    mapfile -t COMPREPLY < <(compgen -W "test status reschedule enable disable default ack downtime comment remarks result reload save new-database notify-test drop-calls stop --program --alertmanager --on-change --page --page-url --page-name --textfile --nagios-files --livestatus --perfdata --version --help" -- "$word"
        compgen -d -- "$word")
}
complete -F _nagsched nagsched
complete -F _nagsched_monitor nagsched-monitor
