# Completion of rbi for fish: the commands, then the files that each takes at each place.

# The words before the cursor, without `rbi`, and without the `try` that the launcher takes before a command.
function __rbi_words
    set -l words (commandline -opc)
    set -e words[1]
    if test "$words[1]" = try
        set -e words[1]
    end
    if set -q words[1]
        printf '%s\n' $words
    end
end

# Whether no command stands before the cursor.
function __rbi_first
    test (count (__rbi_words)) -eq 0
end

# Whether the cursor is at a place, from 1, behind one of some commands.
function __rbi_at
    set -l words (__rbi_words)
    test (count $words) -eq $argv[1]; and contains -- "$words[1]" $argv[2..-1]
end

# The files with an ending, and all folders; where there are none, all files.
function __rbi_files
    set -l files (complete -C "__rbi_no_command "(commandline -ct))
    set -l found (string match -r -- '^[^\t]*(?:/|'(string escape --style=regex -- $argv[1])')(?:\t.*)?$' $files)
    if test (count $found) -eq 0
        set found $files
    end
    printf '%s\n' $found
end

complete -c rbi -f
complete -c rbi -n __rbi_first -a check -d 'tell whether a program is accepted'
complete -c rbi -n __rbi_first -a split -d 'show how each batch of a program is divided'
complete -c rbi -n __rbi_first -a unsplit -d 'run a program as it stands on a service, and send nothing'
complete -c rbi -n __rbi_first -a both -d 'run a program, and a service beside it in the same process'
complete -c rbi -n __rbi_first -a run -d 'run a program on the server that listens at an address'
complete -c rbi -n __rbi_first -a pair -d 'run a program, and a service beside it in a child process'
complete -c rbi -n __rbi_first -a serve -d 'serve a service to clients, one after the other'
complete -c rbi -n __rbi_first -a keep -d 'serve, and keep each request in a journal before it is performed'
complete -c rbi -n __rbi_first -a child -d 'serve a service to one client over standard input and output'
complete -c rbi -n __rbi_first -a hub -d 'play the events of many clients on a service'
complete -c rbi -n __rbi_first -a json -d 'answer a request in JSON'
complete -c rbi -n __rbi_first -a trial -d 'run a program of its own on a service of its own'
complete -c rbi -n __rbi_first -a help -d 'the forms of all commands, or what one does'
complete -c rbi -n __rbi_first -a --help -d 'the forms of all commands'
complete -c rbi -n __rbi_first -a --version -d 'the version'
complete -c rbi -n '__rbi_at 1 help' -a 'check split unsplit both run pair serve keep child hub json trial'

complete -c rbi -n '__rbi_at 1 check split unsplit both pair' -a '(__rbi_files .rbi)'
complete -c rbi -n '__rbi_at 2 run' -a '(__rbi_files .rbi)'
complete -c rbi -n '__rbi_at 1 child json' -a '(__rbi_files .rbs)'
complete -c rbi -n '__rbi_at 2 unsplit both pair serve keep hub' -a '(__rbi_files .rbs)'
complete -c rbi -n '__rbi_at 1 hub' -a '(__rbi_files .events)'
complete -c rbi -n '__rbi_at 2 json' -a '(__rbi_files .json)'
complete -c rbi -n '__rbi_at 4 keep' -a "(__rbi_files '')"
