#compdef aatry
# Completions of aatry for zsh: put this file as _aatry into a folder of fpath, as /usr/share/zsh/site-functions.

# The names of the tables of capabilities, and of the domains and types of sockets.
_aatry_capabilities='
    chown dac_override dac_read_search fowner fsetid kill setgid setuid setpcap linux_immutable net_bind_service
    net_broadcast net_admin net_raw ipc_lock ipc_owner sys_module sys_rawio sys_chroot sys_ptrace sys_pacct
    sys_admin sys_boot sys_nice sys_resource sys_time sys_tty_config mknod lease audit_write audit_control
    setfcap mac_override mac_admin syslog wake_alarm block_suspend audit_read perfmon bpf checkpoint_restore
'
_aatry_domains='
    unix inet ax25 ipx appletalk netrom bridge atmpvc x25 inet6 rose netbeui security key netlink packet ash
    econet atmsvc rds sna irda pppox wanpipe llc ib mpls can tipc bluetooth iucv rxrpc isdn phonet ieee802154
    caif alg nfc vsock kcm qipcrtr smc xdp mctp
'
_aatry_types='
    stream dgram seqpacket rdm raw packet
'

# Offers the names of the profiles of the folder, as `aatry check` tells them now, and other ones. A name that JSON has to write otherwise than it is
# isn't offered.
_aatry_names() {
    local base=${opt_args[-b]:-/etc/apparmor.d} language=${opt_args[--language]:-4}
    local -a names
    names=("$@" ${(f)"$(aatry check --json --language $language -b ${(Q)base} 2>/dev/null </dev/null |
        sed -n 's/.*"kind":"taken","profiles":\["\(.*\)"\].*/\1/p' | sed 's/","/\n/g' | grep -v '\\')"})
    compadd -a names
}

# Offers what may stand at the next place of a question, of which these words stand there.
_aatry_asked() {
    case $1:$# in
    file:1 | exec:1 | cap:1 | net:1) _aatry_names unconfined ;;
    file:3 | exec:2) compadd owner other ;;
    file:4 | exec:3) _files ;;
    cap:2) compadd ${=_aatry_capabilities} ;;
    net:2) compadd ${=_aatry_domains} ;;
    net:3) compadd ${=_aatry_types} ;;
    esac
}

# The same by the words of the command, of which the last is being written. Behind `who` the one who asks is left out, and `file` may be.
_aatry_question() {
    local -a before=("${(@Q)words[1,CURRENT-1]}")
    if (( $#before == 0 )); then
        compadd file exec cap net
    elif [[ $1 == why ]]; then
        _aatry_asked "${before[@]}"
    elif [[ $before[1] == (file|exec|cap|net) ]]; then
        _aatry_asked $before[1] unconfined "${(@)before[2,-1]}"
    else
        _aatry_asked file unconfined "${before[@]}"
    fi
}

# What may stand at the next place of a claim that something is never so, likewise: behind `exec` names alone.
_aatry_claimed() {
    local -a before=("${(@Q)words[1,CURRENT-1]}")
    case $before[1]:$#before in
    :0) compadd exec ;;
    exec:*) _aatry_names unconfined ;;
    *:1) compadd owner other any ;;
    *:2) ;;
    *) _aatry_names ;;
    esac
}

# Offers the files of the folder.
_aatry_files() {
    local -a folders=(${(Q)opt_args[-b]:-/etc/apparmor.d})
    _files -W folders
}

_aatry() {
    local curcontext=$curcontext state line
    local -A opt_args
    local -a base language records verbose help
    base=('-b+[The policy directory]:DIR:_files -/')
    language=('--language=[Reads policy in language N]:N:(3 4)' '--color=[When to show lines in colours]:WHEN:(auto always never)')
    records=('--json[Prints JSON records]')
    verbose=('--verbose[First lists each file that is left out, and why]')
    help=('(- *)'{-h,--help}'[Prints help]')
    if (( CURRENT == 2 )); then
        _values command check why log who never always reach diff session test
        compadd -- -h --help -V --version
        return
    fi
    local command=$words[2]
    shift words
    (( CURRENT-- ))
    case $command in
    check) _arguments -S $base $language $records $help '--rules[Reports rules that decide nothing]' \
        '--included[With --rules, also tries rules of included files]' '--limit=[With --rules, the most sets of states to look at]:N' \
        '*:NAME: _aatry_files' ;;
    why | who) _arguments -S $base $language $records $verbose $help "*::word: _aatry_question $command" ;;
    never) _arguments -S $base $language $records $verbose $help '--names[Prints no rules]' \
        '--limit=[The most sets of states to look at]:N' '*::word: _aatry_claimed' ;;
    always) _arguments -S $base $language $records $verbose $help '--names[Prints no rules]' \
        '--limit=[The most sets of states to look at]:N' ':ACCESS' ':OWNED:(owner other any)' ':PATTERN' '*:WHO: _aatry_names' ;;
    reach) _arguments -S $base $language $records $verbose $help '--dot[Prints a graph for Graphviz]' \
        '--limit=[The most sets of states to look at]:N' '*:WHO: _aatry_names unconfined' ;;
    log) _arguments -S $base $language $records $verbose $help '--denied[Skips requests that were not denied]' \
        '--profile=[Skips requests of other profiles]:NAME: _aatry_names' '--since=[Skips lines stamped before]:WHEN' \
        '--rules[Prints the rules to add]' '--globs[Also offers wider rules]' \
        '--strict[Exits with 1 if a line was not answered]' '*:FILE:_files' ;;
    diff) _arguments -S $language $records $verbose $help '--stat[Prints how much differs]' '--log=[Asks both what a log asked]:FILE:_files' \
        '--questions=[Asks both the questions of a file]:FILE:_files' '--all[Compares the answers for all paths]' \
        '--quiet-audit[With --all, ignores audit lines]' '--limit=[With --all, the most sets of states to look at]:N' \
        ':OLD:_files -/' ':NEW:_files -/' '*:WHO: ' ;;
    session) _arguments -S $base $language $help ;;
    test) _arguments -S $base $language $help '--accept[Updates transcripts with the actual replies]' '*:FILE:_files' ;;
    esac
}

_aatry "$@"
