# Completion of the arguments of `mezdruk history` for bash; `tools/completions/bash/mezdruk.bash` sources it.
_mezdruk_history() {
    local word=${COMP_WORDS[COMP_CWORD]} words=""
    COMPREPLY=()
    ((COMP_CWORD == 1)) && words="--help --version"
    mapfile -t COMPREPLY < <(compgen -W "$words" -- "$word")
}
complete -o default -F _mezdruk_history mezdruk-history
