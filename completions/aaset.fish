# Completions of aaset for fish: put this file into ~/.config/fish/completions, or /usr/share/fish/vendor_completions.d.

# The files and folders of the folder of policy.
function __aaset_names
    set -l base /etc/apparmor.d
    set -l awaited no
    for token in (commandline -opc)[2..-1]
        if test $awaited = yes
            set base $token
            set awaited no
        else
            switch $token
                case -b -Cb
                    set awaited yes
                case '-b*' '-Cb*'
                    set base (string replace -r -- '^-C?b=?' '' $token)
            end
        end
    end
    set -l word (commandline -ct)
    for path in $base/$word*
        set -l name (string sub -s (math (string length -- $base) + 2) -- $path)
        test -d $path; and echo $name/; or echo $name
    end
end

complete -c aaset -f -a '(__aaset_names)'
complete -c aaset -s C -d 'Loads each profile in complain mode'
complete -c aaset -s b -x -a '(__fish_complete_directories)' -d 'The policy directory'
complete -c aaset -l language -x -a '3 4' -d 'Reads policy in language N'
complete -c aaset -s h -l help -d 'Prints help'
complete -c aaset -s V -l version -d 'Prints the version'
