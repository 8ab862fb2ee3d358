# Completes the commands djq, djq-shell and djq-web in bash.

_djq_commands="run serve replay gen mirror"

# The options that each command takes; those that take a file are --log, --program and --page.
_djq_options() {
    case "$1:$2" in
        djq:serve) echo "--log --turns" ;;
        djq:replay) echo "--log" ;;
        djq-shell:*) echo "--local --log --plain --program --stop --timeout --help" ;;
        djq-web:*) echo "--all --allow --demo --listen --name --page --query --viewers --help" ;;
    esac
}

_djq() {
    local program=${COMP_WORDS[0]##*/} word=${COMP_WORDS[COMP_CWORD]} before=${COMP_WORDS[COMP_CWORD-1]}
    case "$before" in
        --log|--program|--page) mapfile -t COMPREPLY < <(compgen -f -- "$word"); return ;;
        --turns|--timeout|--listen|--name|--allow|--query|--viewers) COMPREPLY=(); return ;;
    esac
    if [ "$program" = djq ] && [ "$COMP_CWORD" = 1 ]; then
        mapfile -t COMPREPLY < <(compgen -W "$_djq_commands" -- "$word")
    elif [[ $word == -* ]]; then
        mapfile -t COMPREPLY < <(compgen -W "$(_djq_options "$program" "${COMP_WORDS[1]}")" -- "$word")
    else
        COMPREPLY=()
    fi
}

complete -o filenames -F _djq djq djq-shell djq-web
