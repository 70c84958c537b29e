# Completions of psalgol for fish: copy this file to ~/.config/fish/completions. share/check compares it with the program.

# Whether the first word stands at the cursor.
function __psalgol_at_first
    test (count (commandline -opc)) -eq 1
end

# Whether the volume of one of these commands stands at the cursor.
function __psalgol_at_volume
    set -l words (commandline -opc)
    test (count $words) -eq 2; and contains -- $words[2] $argv
end

# Whether the cursor stands behind the volume of this command.
function __psalgol_behind_volume
    set -l words (commandline -opc)
    test (count $words) -ge 3; and test $words[2] = $argv[1]; and not string match -q -- '-*' $words[3]
end

# Whether this option of this command, or its value, may stand at the cursor: it wasn't given before, and no word -- was.
function __psalgol_lacks
    set -l words (commandline -opc)
    __psalgol_behind_volume $argv[1]; or return 1
    set -e words[1..3]
    if test "$words[-1]" = --$argv[2]
        set -e words[-1]
    end
    not string match -qr -- "^--(|$argv[2]|$argv[2]=.*)\$" $words
end

complete -c psalgol -f
complete -c psalgol -n '__psalgol_at_volume format run' -F
complete -c psalgol -n '__psalgol_behind_volume run' -F
complete -c psalgol -n __psalgol_at_first -a format -d 'make an empty volume'
complete -c psalgol -n __psalgol_at_first -a run -d 'run the program in FILE over the volume'
complete -c psalgol -n __psalgol_at_first -a help -d 'what the program tells of itself'
complete -c psalgol -n __psalgol_at_first -l help -d 'what the program tells of itself'
complete -c psalgol -n __psalgol_at_first -l version -d 'the version'
complete -c psalgol -n '__psalgol_at_volume format run' -l help -d 'the words, options and statuses of the command'
complete -c psalgol -n '__psalgol_lacks run area' -l area -x -a 16384 -d 'the KiB for its objects, 1 to 262144 (default 16384)'
complete -c psalgol -n '__psalgol_lacks run turns' -l turns -x -a 100000000 -d 'the turns that it may take, 0 to 1000000000000 (default 100000000)'
complete -c psalgol -n '__psalgol_lacks run input' -l input -r -F -d 'the text that it reads (default: an empty one)'
