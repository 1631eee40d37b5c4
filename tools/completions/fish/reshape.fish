# Completion of the arguments of `reshape` for fish. No argument is a file; fish completes redirections itself.
function __reshape_has -d 'Whether one of these options stands before the cursor'
    for token in (commandline -opc)[2..]
        contains -- (string split -m 1 = -- $token)[1] $argv; and return 0
    end
    return 1
end
function __reshape_takes -d 'Whether an option may be added where none of these stands'
    not __reshape_has --make --help --version $argv
end
set -l alone 'test (count (commandline -opc)) -eq 1'
complete -c reshape -f
complete -c reshape -n '__reshape_takes --pretty --indent --tabs' -l pretty -d 'indent by two spaces'
complete -c reshape -n '__reshape_takes --pretty --indent --tabs' -a "--indent=(seq 0 8)" -d 'indent by so many spaces'
complete -c reshape -n '__reshape_takes --pretty --indent --tabs' -l tabs -d 'indent by a tab'
complete -c reshape -n '__reshape_takes --sort-keys' -l sort-keys -d 'sort the members of each object'
complete -c reshape -n '__reshape_takes --unique-keys' -l unique-keys -d 'refuse two members of one key'
complete -c reshape -n '__reshape_takes --depth' -a '--depth=' -d 'refuse input of more levels, 254 without it'
complete -c reshape -n $alone -a '--make=' -d 'read nothing and make so many records'
complete -c reshape -n $alone -l help -d 'print the arguments and statuses'
complete -c reshape -n $alone -l version -d 'print the version'
