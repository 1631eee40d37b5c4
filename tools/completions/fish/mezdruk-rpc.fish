# Completion of the arguments of `mezdruk rpc` for fish.
set -l alone 'test (count (commandline -opc)) -eq 1'
complete -c mezdruk-rpc -f
complete -c mezdruk-rpc -n $alone -l help -d 'print the methods and statuses'
complete -c mezdruk-rpc -n $alone -l version -d 'print the version'
