# Completion of `mezdruk` for bash, and of the script: `source tools/completions/bash/mezdruk.bash` completes `./mezdruk`.
# The arguments of a program are completed by its own file beside this one.
_mezdruk_commands="fmt check get keys length query edit set insert push remove patch merge diff overlay"
_mezdruk_programs="reshape lines rpc history"
_mezdruk_folder=$(dirname "${BASH_SOURCE[0]}")
for _mezdruk_name in $_mezdruk_programs json_patch; do
    for _mezdruk_file in "$_mezdruk_name.bash" "mezdruk-$_mezdruk_name" "$_mezdruk_name"; do
        [[ -f $_mezdruk_folder/$_mezdruk_file ]] || continue
        source "$_mezdruk_folder/$_mezdruk_file"
        break
    done
done
unset _mezdruk_folder _mezdruk_file _mezdruk_name
# The options of a command. Where none is offered, bash completes the names of files.
_mezdruk_command() {
    local word=${COMP_WORDS[COMP_CWORD]} given=" ${COMP_WORDS[*]:2:COMP_CWORD-2} " words=""
    local command=${COMP_WORDS[1]}
    # --indent=N, --color=WHEN and --edits=FILE come as three words, since bash breaks words at an equals sign.
    if [[ $word == = || ${COMP_WORDS[COMP_CWORD - 1]} == = ]]; then
        if [[ $given =~ \ --color\ (=\ )?$ ]]; then
            mapfile -t COMPREPLY < <(compgen -W "auto always never" -- "${word#=}")
            return
        fi
        [[ $given =~ \ --indent\ (=\ )?$ ]] || return
        mapfile -t COMPREPLY < <(compgen -W "0 1 2 3 4 5 6 7 8" -- "${word#=}")
        return
    fi
    [[ $word == -* && $given != *" -- "* ]] || return
    if [[ $command != check ]]; then
        [[ $given =~ \ (-C|-M|--color)[\ =] ]] || words+=" --color="
        [[ $given =~ \ (-c|--(compact|pretty|tabs|indent))[\ =] ]] ||
            words+=" --compact --pretty --indent= --tabs"
        [[ $given =~ \ (-S|--sort-keys)\  ]] || words+=" --sort-keys"
    fi
    [[ $given =~ \ --(unique-keys|stream)\  ]] || words+=" --unique-keys"
    [[ $given =~ \ --(depth|stream)[\ =] ]] || words+=" --depth="
    [[ $given =~ \ --bom\  ]] || words+=" --bom"
    if [[ ! $command =~ ^(diff|overlay)$ ]]; then
        [[ $given =~ \ --(lines|stream)\  ]] || words+=" --lines"
        [[ $given =~ \ --(lines|stream|unique-keys|depth)[\ =] ]] || words+=" --stream"
    fi
    [[ ! $command =~ ^(get|keys|query)$ || $given =~ \ (-r|--raw)\  ]] || words+=" --raw"
    [[ $command != get ]] || words+=" --path="
    [[ $command != query || $given =~ \ --count\  ]] || words+=" --count"
    [[ $command != query || $given =~ \ (-e|--exit-status)\  ]] || words+=" --exit-status"
    [[ ! $command =~ ^(set|insert|push)$ || $given =~ \ --string\  ]] || words+=" --string"
    [[ $command =~ ^(check|get|keys|length|query|diff)$ || $given =~ \ (-i|--in-place)\  ]] ||
        words+=" --in-place"
    [[ $command =~ ^(check|get|keys|length|query|diff)$ || $given =~ \ (-v|--verbose)\  ]] ||
        words+=" --verbose"
    case $command in
        edit) [[ $given =~ \ --edits[\ =] ]] || words+=" --edits=" ;;
        patch) [[ $given =~ \ --patch[\ =] ]] || words+=" --patch=" ;;
        diff) [[ $given =~ \ --merge\  ]] || words+=" --merge" ;;
        merge) [[ $given =~ \ --merge[\ =] ]] || words+=" --merge=" ;;
    esac
    ((COMP_CWORD != 2)) || words+=" --help"
    mapfile -t COMPREPLY < <(compgen -W "$words" -- "$word")
    [[ ${#COMPREPLY[@]} == 1 && ${COMPREPLY[0]} == *= ]] && compopt -o nospace
}
# The options of `rpc` over a file, which the program mezdruk-rpc does not have.
_mezdruk_rpc_over_file() {
    local word=${COMP_WORDS[COMP_CWORD]} given=" ${COMP_WORDS[*]:2:COMP_CWORD-2} " words=""
    COMPREPLY=()
    [[ $word == -* ]] || return
    ((COMP_CWORD != 2)) || words="--help --version"
    [[ $given =~ \ --document[\ =] ]] || words+=" --document="
    [[ $given =~ \ --save\  ]] || words+=" --save"
    mapfile -t COMPREPLY < <(compgen -W "$words" -- "$word")
    [[ ${#COMPREPLY[@]} == 1 && ${COMPREPLY[0]} == *= ]] && compopt -o nospace
}
# Sets `at` to the index of the command. Options may come before it, some with a value.
_mezdruk_find_command() {
    at=1
    while ((at < COMP_CWORD)) && [[ ${COMP_WORDS[at]} == -[^0-9]* && ! ${COMP_WORDS[at]} =~ ^--(help|version|build|)$ ]]; do
        if [[ ${COMP_WORDS[at + 1]} == = ]]; then
            ((at += 3))
        elif [[ ${COMP_WORDS[at]} =~ ^--(indent|document)$ ]]; then
            ((at += 2))
        else
            ((at += 1))
        fi
    done
}
_mezdruk() {
    local word=${COMP_WORDS[COMP_CWORD]} programs=$_mezdruk_programs words="" at first
    # A path leads to the script, which also builds the programs.
    local script=""
    [[ ${COMP_WORDS[0]} == */* ]] && script=yes programs+=" json_patch"
    COMPREPLY=()
    _mezdruk_find_command
    ((at <= COMP_CWORD)) || return
    first=${COMP_WORDS[at]}
    COMP_WORDS=("${COMP_WORDS[0]}" "$first" "${COMP_WORDS[@]:1:at-1}" "${COMP_WORDS[@]:at+1}")
    if ((COMP_CWORD == 1)); then
        words="$programs $_mezdruk_commands help --help --version${script:+ --build}"
    elif ((at == COMP_CWORD)); then
        words="$_mezdruk_programs $_mezdruk_commands"
    elif [[ $script && $first == --build ]]; then
        words="$programs mezdruk all"
    elif [[ $first == help ]]; then
        ((COMP_CWORD != 2)) || words="$_mezdruk_programs $_mezdruk_commands"
    elif [[ $first == rpc ]]; then
        _mezdruk_rpc_over_file
        return
    elif [[ " $programs " == *" $first "* ]]; then
        COMP_WORDS=("${COMP_WORDS[@]:1}")
        ((COMP_CWORD -= 1))
        "_mezdruk_$first"
        return
    elif [[ " $_mezdruk_commands " == *" $first "* ]]; then
        _mezdruk_command
        return
    fi
    mapfile -t COMPREPLY < <(compgen -W "$words" -- "$word" | sort -u)
}
complete -o default -F _mezdruk mezdruk
