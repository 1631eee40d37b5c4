# Completion of the arguments of `mezdruk lines` for fish.
function __mezdruk_lines_takes -d 'Whether an option may be added where none of these stands'
    for token in (commandline -opc)[2..]
        contains -- (string split -m 1 = -- $token)[1] --help --version $argv; and return 1
    end
    return 0
end
set -l alone 'test (count (commandline -opc)) -eq 1'
complete -c mezdruk-lines -f
complete -c mezdruk-lines -n '__mezdruk_lines_takes --has' -a '--has=' -d 'write a row only where the path leads to a value'
complete -c mezdruk-lines -n '__mezdruk_lines_takes --csv' -l csv -d 'write CSV: a header and a record for each row'
complete -c mezdruk-lines -n '__mezdruk_lines_takes --strict' -l strict -d 'stop at the first bad line'
complete -c mezdruk-lines -n $alone -l help -d 'print the arguments and statuses'
complete -c mezdruk-lines -n $alone -l version -d 'print the version'
