# Completions of bash for ip_lists.
_ip_lists() {
    local word=${COMP_WORDS[COMP_CWORD]} operations="union common except odd at-least complement count has diff check" at
    COMPREPLY=()
    if [[ $word == -* ]]; then
        mapfile -t COMPREPLY < <(compgen -W "--blocks --ranges -4 -6 --fail-empty --skip-bad -h --help --version --" -- "$word")
        return
    fi
    for ((at = 1; at < COMP_CWORD; at++)); do
        if [[ " $operations " == *" ${COMP_WORDS[at]} "* ]]; then
            mapfile -t COMPREPLY < <(compgen -f -- "$word")
            return
        fi
    done
    mapfile -t COMPREPLY < <(compgen -W "$operations" -- "$word")
}
complete -o filenames -F _ip_lists ip_lists
