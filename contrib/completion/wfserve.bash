# Completion of wfserve for bash: source this file, or lay it as `wfserve` into the folder of completions
# (pkg-config --variable=completionsdir bash-completion).
# The commands with their words, of which a word in capitals is a file, FLOW a workflow of the policy, and N a number.
_wfserve_forms='serve POLICY --lanes --rounds
plan POLICY FLOW
solve POLICY
resilience POLICY FLOW N
cnf POLICY FLOW MODEL
show POLICY
audit POLICY REQUESTS --lanes --rounds
resume POLICY REQUESTS TRANSCRIPT --lanes --rounds
trial N'

_wfserve() {
    local word=${COMP_WORDS[COMP_CWORD]} before=${COMP_WORDS[COMP_CWORD - 1]} command=${COMP_WORDS[1]}
    local form place=0 it wanted options
    COMPREPLY=()
    if [ "$COMP_CWORD" -eq 1 ]; then
        COMPREPLY=($(compgen -W "$(cut -d' ' -f1 <<<"$_wfserve_forms")" -- "$word"))
        return
    fi
    case $before in
    --lanes) COMPREPLY=($(compgen -W "$(echo {1..8})" -- "$word")) && return ;;
    --rounds) COMPREPLY=($(compgen -W "$(echo {0..8})" -- "$word")) && return ;;
    esac
    form=$(grep "^$command " <<<"$_wfserve_forms") || return
    # the place among the words that are no option and no option's value
    before=
    for it in "${COMP_WORDS[@]:2:COMP_CWORD-2}"; do
        case $it in
        -*) ;;
        *) case $before in --lanes | --rounds) ;; *) place=$((place + 1)) ;; esac ;;
        esac
        before=$it
    done
    wanted=$(tr ' ' '\n' <<<"$form" | sed 1d | grep -v '^-' | sed -n "$((place + 1))p")
    options=$(tr ' ' '\n' <<<"$form" | grep '^-')
    case $word in
    -*) COMPREPLY=($(compgen -W "$options" -- "$word")) ;;
    *) case $wanted in
        FLOW) COMPREPLY=($(compgen -W "$(sed -n 's/^\[flows\.\([a-z0-9_]*\).*/\1/p' "${COMP_WORDS[2]}" 2>/dev/null)" -- "$word")) ;;
        N) ;;
        ?*) compopt -o filenames 2>/dev/null; COMPREPLY=($(compgen -f -- "$word")) ;;
        '') COMPREPLY=($(compgen -W "$options" -- "$word")) ;;
        esac ;;
    esac
}
complete -F _wfserve wfserve ./wfserve
