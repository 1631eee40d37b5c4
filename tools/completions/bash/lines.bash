# Completion of the arguments of `mezdruk lines` for bash; `tools/completions/bash/mezdruk.bash` sources it.
_mezdruk_lines() {
    local word=${COMP_WORDS[COMP_CWORD]} given=" ${COMP_WORDS[*]:1:COMP_CWORD-1} " words=""
    COMPREPLY=()
    # --has=PATH comes as three words, since bash breaks words at an equals sign.
    [[ $word == = || ${COMP_WORDS[COMP_CWORD - 1]} == = ]] && return
    ((COMP_CWORD == 1)) && words="--help --version"
    [[ $given =~ \ --(help|version)\  ]] && return
    [[ $given =~ \ --has[\ =] ]] || words+=" --has="
    [[ $given =~ \ --csv\  ]] || words+=" --csv"
    [[ $given =~ \ --strict\  ]] || words+=" --strict"
    mapfile -t COMPREPLY < <(compgen -W "$words" -- "$word")
    [[ ${COMPREPLY[*]} == --has= ]] && compopt -o nospace
}
complete -o default -F _mezdruk_lines mezdruk-lines
