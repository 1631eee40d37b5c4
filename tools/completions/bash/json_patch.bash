# Completion of the arguments of `json_patch` for bash; `tools/completions/bash/mezdruk.bash` sources it.
_mezdruk_json_patch() {
    local word=${COMP_WORDS[COMP_CWORD]} arguments="--patch= --merge= --help --version"
    COMPREPLY=()
    ((COMP_CWORD == 1)) || return
    mapfile -t COMPREPLY < <(compgen -W "$arguments" -- "$word")
    if [[ ${COMPREPLY[*]} == --patch= || ${COMPREPLY[*]} == --merge= ]]; then
        compopt -o nospace
    fi
}
complete -o default -F _mezdruk_json_patch json_patch
