# Completion of the arguments of `mezdruk history` for fish.
set -l alone 'test (count (commandline -opc)) -eq 1'
complete -c mezdruk-history -f
complete -c mezdruk-history -n $alone -l help -d 'print the arguments and statuses'
complete -c mezdruk-history -n $alone -l version -d 'print the version'
