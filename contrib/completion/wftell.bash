# Completion of wftell for bash: source this file, or lay it as `wftell` into the folder of completions
# (pkg-config --variable=completionsdir bash-completion).
_wftell() {
    local word=${COMP_WORDS[COMP_CWORD]} command=${COMP_WORDS[1]}
    COMPREPLY=()
    case $COMP_CWORD:$command in
    1:*) COMPREPLY=($(compgen -W 'policy why log entry now page --help --version' -- "$word")) ;;
    2:policy | [234]:log | [234]:entry | [234]:now | [234]:page | 2:why) compopt -o filenames 2>/dev/null; COMPREPLY=($(compgen -f -- "$word")) ;;
    3:why) COMPREPLY=($(compgen -W "$(sed -n 's/^\[flows\.\([a-z0-9_]*\).*/\1/p' "${COMP_WORDS[2]}" 2>/dev/null)" -- "$word")) ;;
    *:log | *:entry | *:now | *:page) COMPREPLY=($(compgen -W '--lanes --rounds' -- "$word")) ;;
    esac
}
complete -F _wftell wftell ./wftell
