# Completion of the arguments of `mezdruk rpc` for bash; `tools/completions/bash/mezdruk.bash` sources it.
_mezdruk_rpc() {
    COMPREPLY=()
    ((COMP_CWORD == 1)) || return
    mapfile -t COMPREPLY < <(compgen -W "--help --version" -- "${COMP_WORDS[COMP_CWORD]}")
}
complete -o default -F _mezdruk_rpc mezdruk-rpc
