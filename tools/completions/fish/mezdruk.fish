# Completion of `mezdruk`, and of the script `./mezdruk`, for fish.
# The arguments of a program are completed by the file of that program.
for file in (path dirname (status filename))/{reshape,json_patch,mezdruk-*}.fish
    test -e $file; and source $file
end
function __mezdruk_is_script -d 'Whether the command is a path: it leads to the script, which also builds the programs'
    string match -q '*/*' -- (commandline -opc)[1]
end
function __mezdruk_command_index -d 'Prints where the command is or has to be: options may come before it, some with a value'
    set -l words (commandline -opc)
    set -l at 2
    while string match -qr '^-[^0-9]' -- $words[$at]; and not contains -- $words[$at] -- --help --version --build
        contains -- $words[$at] --indent --document; and set at (math $at + 1)
        set at (math $at + 1)
    end
    echo $at
end
function __mezdruk_wants_command -d 'Whether the cursor is at the command'
    test (__mezdruk_command_index) -eq (math (count (commandline -opc)) + 1)
end
function __mezdruk_line -d 'Prints the words before the cursor, the command before the options that come first'
    set -l words (commandline -opc)
    set -l at (__mezdruk_command_index)
    if test $at -gt 2 -a $at -le (count $words)
        set words $words[1] $words[$at] $words[2..(math $at - 1)] $words[(math $at + 1)..]
    end
    printf '%s\n' $words
end
function __mezdruk_arguments -d 'Completes the arguments after the name of a program'
    set -l words (__mezdruk_line)
    contains -- $words[2] reshape lines rpc history json_patch; or return
    set -l program mezdruk-$words[2]
    contains -- $words[2] reshape json_patch; and set program $words[2]
    test (count $words) -eq 2; and __mezdruk_is_script; and echo --build
    complete -C (string join ' ' -- $program (string escape -- $words[3..]) (commandline -ct))
end
function __mezdruk_takes -d 'Whether the command is one of the first list, and no option of the second is there'
    set -l words (__mezdruk_line)
    test (count $words) -ge 2; or return 1
    contains -- $words[2] (string split , -- $argv[1]); or return 1
    for token in $words[3..]
        contains -- (string split -m 1 = -- $token)[1] $argv[2..]; and return 1
    end
    return 0
end
set -l first 'test (count (commandline -opc)) -eq 1'
set -l reads fmt,get,keys,length,query,edit,set,insert,push,remove,patch,merge
set -l prints $reads,diff,overlay
set -l writes fmt,edit,set,insert,push,remove,patch,merge,overlay
set -l texts set,insert,push
set -l layouts -c --compact --pretty --indent --tabs
complete -c mezdruk -n __mezdruk_wants_command -f -a 'fmt' -d 'lay documents out'
complete -c mezdruk -n __mezdruk_wants_command -f -a 'check' -d 'print nothing but errors'
complete -c mezdruk -n __mezdruk_wants_command -f -a 'get' -d 'print the value at a path'
complete -c mezdruk -n __mezdruk_wants_command -f -a 'keys' -d 'print the keys of an object'
complete -c mezdruk -n __mezdruk_wants_command -f -a 'length' -d 'print how many elements or members there are'
complete -c mezdruk -n __mezdruk_wants_command -f -a 'query' -d 'print what a JSONPath query selects'
complete -c mezdruk -n __mezdruk_wants_command -f -a 'edit' -d 'apply edits'
complete -c mezdruk -n __mezdruk_wants_command -f -a 'set insert push remove' -d 'apply one edit'
complete -c mezdruk -n __mezdruk_wants_command -f -a 'patch' -d 'apply a JSON Patch'
complete -c mezdruk -n __mezdruk_wants_command -f -a 'merge' -d 'apply a JSON Merge Patch'
complete -c mezdruk -n __mezdruk_wants_command -f -a 'diff' -d 'print the patch between two documents'
complete -c mezdruk -n __mezdruk_wants_command -f -a 'overlay' -d 'lay documents over one another'
complete -c mezdruk -n __mezdruk_wants_command -f -a 'reshape lines rpc history' -d 'run that program'
complete -c mezdruk -n "$first; and __mezdruk_is_script" -f -a 'json_patch' -d 'run that program'
complete -c mezdruk -n "$first; and __mezdruk_is_script" -f -a '--build' -d 'prove and build the programs'
complete -c mezdruk -n $first -f -a 'help' -d 'print the help of a command'
complete -c mezdruk -n $first -f -a '--help' -d 'print the usage'
complete -c mezdruk -n $first -f -a '--version' -d 'print the version'
complete -c mezdruk -n "not $first; and __mezdruk_is_script; and test (commandline -opc)[2] = --build" -f -a 'reshape lines rpc history json_patch mezdruk all'
complete -c mezdruk -n "not $first" -a '(__mezdruk_arguments)'
complete -c mezdruk -n '__mezdruk_takes rpc --document' -a '--document=' -d 'begin with the document of a file'
complete -c mezdruk -n '__mezdruk_takes rpc --save' -a '--save' -d 'write the file in place after each change'
complete -c mezdruk -n "__mezdruk_takes $prints $layouts" -a '--compact' -d 'no whitespace'
complete -c mezdruk -n "__mezdruk_takes $prints $layouts" -a '--pretty' -d 'indent by two spaces'
complete -c mezdruk -n "__mezdruk_takes $prints $layouts" -a "--indent=(seq 0 8)" -d 'indent by so many spaces'
complete -c mezdruk -n "__mezdruk_takes $prints $layouts" -a '--tabs' -d 'indent by a tab'
complete -c mezdruk -n "__mezdruk_takes $prints -S --sort-keys" -a '--sort-keys' -d 'sort the members of each object'
complete -c mezdruk -n "__mezdruk_takes $prints -C -M --color" -a '--color=auto --color=always --color=never' -d 'print in colors'
complete -c mezdruk -n "__mezdruk_takes check,$prints --unique-keys --stream" -a '--unique-keys' -d 'refuse two members of one key'
complete -c mezdruk -n "__mezdruk_takes check,$prints --depth --stream" -a '--depth=' -d 'refuse input of more levels, 254 without it'
complete -c mezdruk -n "__mezdruk_takes check,$prints --bom" -a '--bom' -d 'skip a byte order mark at the beginning'
complete -c mezdruk -n "__mezdruk_takes check,$reads --lines --stream" -a '--lines' -d 'each line is a document'
complete -c mezdruk -n "__mezdruk_takes check,$reads --lines --stream --unique-keys --depth" -a '--stream' -d 'documents follow one another'
complete -c mezdruk -n '__mezdruk_takes get,keys,query -r --raw' -a '--raw' -d 'print the content of a string'
complete -c mezdruk -n '__mezdruk_takes get' -a '--path=' -d 'print one more value'
complete -c mezdruk -n '__mezdruk_takes query --count' -a '--count' -d 'print how many values are selected'
complete -c mezdruk -n '__mezdruk_takes query -e --exit-status' -a '--exit-status' -d 'status 3 if nothing is selected'
complete -c mezdruk -n "__mezdruk_takes $texts --string" -a '--string' -d 'take the value as a string'
complete -c mezdruk -n "test (count (commandline -opc)) -eq 2; and __mezdruk_takes check,$prints" -a '--help' -d 'print the help of the command'
complete -c mezdruk -n 'test (count (commandline -opc)) -eq 2; and test (commandline -opc)[2] = help' -f -a 'fmt check get keys length query edit set insert push remove patch merge diff overlay reshape lines rpc history'
complete -c mezdruk -n "__mezdruk_takes $writes -i --in-place" -a '--in-place' -d 'write each file in place'
complete -c mezdruk -n "__mezdruk_takes $writes -v --verbose" -a '--verbose' -d 'say how many files were changed'
complete -c mezdruk -n '__mezdruk_takes edit --edits' -a '--edits=' -d 'take the edits from a file'
complete -c mezdruk -n '__mezdruk_takes patch --patch' -a '--patch=' -d 'take the patch from a file'
complete -c mezdruk -n '__mezdruk_takes merge --merge' -a '--merge=' -d 'take the patch from a file'
complete -c mezdruk -n '__mezdruk_takes diff --merge' -a '--merge' -d 'print a merge patch'
