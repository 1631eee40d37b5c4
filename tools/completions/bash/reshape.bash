# Completion of the arguments of `reshape` for bash; `tools/completions/bash/mezdruk.bash` sources it too.
_mezdruk_reshape() {
    local word=${COMP_WORDS[COMP_CWORD]} given=" ${COMP_WORDS[*]:1:COMP_CWORD-1} " words=""
    COMPREPLY=()
    # --indent=N, --depth=N and --make=N come as three words, since bash breaks words at an equals sign.
    if [[ $word == = || ${COMP_WORDS[COMP_CWORD - 1]} == = ]]; then
        [[ $given =~ \ --(depth|make)\ (=\ )?$ ]] && return
        mapfile -t COMPREPLY < <(compgen -W "0 1 2 3 4 5 6 7 8" -- "${word#=}")
        return
    fi
    ((COMP_CWORD == 1)) && words="--help --version --make="
    [[ $given =~ \ --(help|version|make)[\ =] ]] && return
    [[ $given =~ \ --(pretty|tabs|indent)[\ =] ]] || words+=" --pretty --indent= --tabs"
    [[ $given =~ \ --sort-keys\  ]] || words+=" --sort-keys"
    [[ $given =~ \ --unique-keys\  ]] || words+=" --unique-keys"
    [[ $given =~ \ --depth[\ =] ]] || words+=" --depth="
    mapfile -t COMPREPLY < <(compgen -W "$words" -- "$word")
    if [[ ${COMPREPLY[*]} == --indent= || ${COMPREPLY[*]} == --depth= || ${COMPREPLY[*]} == --make= ]]; then
        compopt -o nospace
    fi
}
complete -o default -F _mezdruk_reshape reshape
