# Completion of the arguments of `json_patch` for fish.
set -l alone 'test (count (commandline -opc)) -eq 1'
complete -c json_patch -f
complete -c json_patch -n $alone -a '--patch=' -d 'apply a JSON Patch'
complete -c json_patch -n $alone -a '--merge=' -d 'apply a JSON Merge Patch'
complete -c json_patch -n $alone -l help -d 'print the arguments and statuses'
complete -c json_patch -n $alone -l version -d 'print the version'
