# Completions of aatry for fish: put this file into ~/.config/fish/completions, or /usr/share/fish/vendor_completions.d.

# The names of the tables of capabilities, and of the domains and types of sockets.
set -g __aatry_capabilities '
    chown dac_override dac_read_search fowner fsetid kill setgid setuid setpcap linux_immutable net_bind_service
    net_broadcast net_admin net_raw ipc_lock ipc_owner sys_module sys_rawio sys_chroot sys_ptrace sys_pacct
    sys_admin sys_boot sys_nice sys_resource sys_time sys_tty_config mknod lease audit_write audit_control
    setfcap mac_override mac_admin syslog wake_alarm block_suspend audit_read perfmon bpf checkpoint_restore
'
set -g __aatry_domains '
    unix inet ax25 ipx appletalk netrom bridge atmpvc x25 inet6 rose netbeui security key netlink packet ash
    econet atmsvc rds sna irda pppox wanpipe llc ib mpls can tipc bluetooth iucv rxrpc isdn phonet ieee802154
    caif alg nfc vsock kcm qipcrtr smc xdp mctp
'
set -g __aatry_types '
    stream dgram seqpacket rdm raw packet
'

# Goes over the words before the one that is written, and leaves the folder, the language and the command's own words in variables of who calls.
function __aatry_read --no-scope-shadowing
    set base /etc/apparmor.d
    set language 4
    set own
    set -l awaited ''
    set -l options yes
    for token in (commandline -opc)[2..-1]
        if test -n "$awaited"
            switch $awaited
                case -b
                    set base $token
                case --language
                    set language $token
            end
            set awaited ''
        else if test $options = yes; and string match -q -- '-?*' $token
            switch $token
                case --
                    set options no
                case -b --language --color --profile --since --limit --log --questions
                    set awaited $token
                case '-b*'
                    set base (string replace -r -- '^-b=?' '' $token)
                case '--language=*'
                    set language (string replace -- '--language=' '' $token)
            end
        else
            set -a own $token
        end
    end
end

# The command is one of these.
function __aatry_is
    set -l base
    set -l language
    set -l own
    __aatry_read
    contains -- "$own[1]" $argv
end

function __aatry_is_none
    set -l base
    set -l language
    set -l own
    __aatry_read
    test (count $own) -eq 0
end

# The names of the profiles of the folder, as `aatry check` tells them now. A name that JSON has to write otherwise than it is isn't told.
function __aatry_names
    set -l base
    set -l language
    set -l own
    __aatry_read
    aatry check --json --language $language -b $base 2>/dev/null </dev/null |
        string replace -rf '.*"kind":"taken","profiles":\["(.*)"\].*' '$1' | string split '","' | string match -rv '\\\\'
end

# What may stand at the next place of a question.
function __aatry_asked
    set -l base
    set -l language
    set -l own
    __aatry_read
    set -l command $own[1]
    set -l words $own[2..-1]
    if test (count $words) -eq 0
        printf '%s\n' file exec cap net
        return
    end
    # Behind `who` the one who asks is left out, and `file` may be.
    if test $command = who
        if contains -- $words[1] file exec cap net
            set words $words[1] unconfined $words[2..-1]
        else
            set words file unconfined $words
        end
    end
    switch $words[1]:(count $words)
        case file:1 exec:1 cap:1 net:1
            echo unconfined
            __aatry_names
        case file:3 exec:2
            printf '%s\n' owner other
        case file:4 exec:3
            __fish_complete_path (commandline -ct)
        case cap:2
            string match -ra '\S+' $__aatry_capabilities
        case net:2
            string match -ra '\S+' $__aatry_domains
        case net:3
            string match -ra '\S+' $__aatry_types
    end
end

# What may stand at the next place of a claim about all paths.
function __aatry_claimed
    set -l base
    set -l language
    set -l own
    __aatry_read
    # Behind `exec` of `never` come names alone.
    if test "$own[1..2]" = 'never exec'
        echo unconfined
        __aatry_names
        return
    end
    switch $own[1]:(count $own)
        case 'never:1'
            echo exec
        case '*:2'
            printf '%s\n' owner other any
        case 'always:1' '*:3'
        case '*'
            __aatry_names
    end
end

# The files at the top of the folder, without folders.
function __aatry_files
    set -l base
    set -l language
    set -l own
    __aatry_read
    for file in $base/*
        test -f $file; and string replace -r '.*/' '' $file
    end
end

complete -c aatry -f
complete -c aatry -n __aatry_is_none -a 'check why log who never always reach diff session test'
complete -c aatry -n __aatry_is_none -s V -l version -d 'Prints the version'
complete -c aatry -s h -l help -d 'Prints help'
complete -c aatry -l language -x -a '3 4' -d 'Reads policy in language N'
complete -c aatry -l color -x -a 'auto always never' -d 'When to show lines in colours'
complete -c aatry -n '__aatry_is check why log who never always reach session test' -s b -x -a '(__fish_complete_directories)' -d 'The policy directory'
complete -c aatry -n '__aatry_is check why log who never always reach diff' -l json -d 'Prints JSON records'
complete -c aatry -n '__aatry_is why log who never always reach diff' -l verbose -d 'First lists each file that is left out, and why'
complete -c aatry -n '__aatry_is check' -l rules -d 'Reports rules that decide nothing'
complete -c aatry -n '__aatry_is check' -l included -d 'With --rules, also tries rules of included files'
complete -c aatry -n '__aatry_is check' -l limit -x -d 'With --rules, the most sets of states to look at'
complete -c aatry -n '__aatry_is log' -l denied -d 'Skips requests that were not denied'
complete -c aatry -n '__aatry_is log' -l profile -x -a '(__aatry_names)' -d 'Skips requests of other profiles'
complete -c aatry -n '__aatry_is log' -l since -x -d 'Skips lines stamped before'
complete -c aatry -n '__aatry_is log' -l rules -d 'Prints the rules to add'
complete -c aatry -n '__aatry_is log' -l globs -d 'Also offers wider rules'
complete -c aatry -n '__aatry_is log' -l strict -d 'Exits with 1 if a line was not answered'
complete -c aatry -n '__aatry_is never always' -l names -d 'Prints no rules'
complete -c aatry -n '__aatry_is never always' -l limit -x -d 'The most sets of states to look at'
complete -c aatry -n '__aatry_is reach' -l dot -d 'Prints a graph for Graphviz'
complete -c aatry -n '__aatry_is reach' -l limit -x -d 'The most sets of states to look at'
complete -c aatry -n '__aatry_is test' -l accept -d 'Updates transcripts with the actual replies'
complete -c aatry -n '__aatry_is diff' -l stat -d 'Prints how much differs'
complete -c aatry -n '__aatry_is diff' -l all -d 'Compares the answers for all paths'
complete -c aatry -n '__aatry_is diff' -l quiet-audit -d 'With --all, ignores audit lines'
complete -c aatry -n '__aatry_is diff' -l limit -x -d 'With --all, the most sets of states to look at'
complete -c aatry -n '__aatry_is diff' -l log -r -F -d 'Asks both what a log asked'
complete -c aatry -n '__aatry_is diff' -l questions -r -F -d 'Asks both the questions of a file'
complete -c aatry -n '__aatry_is check' -a '(__aatry_files)'
complete -c aatry -n '__aatry_is why who' -a '(__aatry_asked)'
complete -c aatry -n '__aatry_is never always' -a '(__aatry_claimed)'
complete -c aatry -n '__aatry_is reach' -a 'unconfined (__aatry_names)'
complete -c aatry -n '__aatry_is log test' -F
complete -c aatry -n '__aatry_is diff' -a '(__fish_complete_directories)'
