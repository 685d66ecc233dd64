# Completions of aatry for bash: source this file, or put it into /usr/share/bash-completion/completions/ as aatry.

# The names of the tables of capabilities, and of the domains and types of sockets.
_aatry_capabilities='
    chown dac_override dac_read_search fowner fsetid kill setgid setuid setpcap linux_immutable net_bind_service
    net_broadcast net_admin net_raw ipc_lock ipc_owner sys_module sys_rawio sys_chroot sys_ptrace sys_pacct
    sys_admin sys_boot sys_nice sys_resource sys_time sys_tty_config mknod lease audit_write audit_control
    setfcap mac_override mac_admin syslog wake_alarm block_suspend audit_read perfmon bpf checkpoint_restore
'
_aatry_domains='
    unix inet ax25 ipx appletalk netrom bridge atmpvc x25 inet6 rose netbeui security key netlink packet ash
    econet atmsvc rds sna irda pppox wanpipe llc ib mpls can tipc bluetooth iucv rxrpc isdn phonet ieee802154
    caif alg nfc vsock kcm qipcrtr smc xdp mctp
'
_aatry_types='
    stream dgram seqpacket rdm raw packet
'

# A word as it was typed, without quotes and backslashes, and with the home folder in the place of a `~` at its beginning.
_aatry_bare() {
    local word=$1
    if [[ $word == \~ || $word == \~/* ]]; then word=$HOME${word#\~}; fi
    printf '%s' "${word//[\\\"\']/}"
}

# Offers those of some words that begin with what is typed.
_aatry_offer() {
    mapfile -t COMPREPLY < <(compgen -W "$1" -- "$word")
}

# Offers the names of the profiles of the folder, as `aatry check` tells them now, and other ones. A name that JSON has to write otherwise than it is
# isn't offered. They are compared here, since compgen would expand them as the shell expands words.
_aatry_offer_names() {
    local typed found
    typed=$(_aatry_bare "$word")
    while IFS= read -r found; do
        if [[ $found == "$typed"* ]]; then COMPREPLY+=("$found"); fi
    done < <(
        printf '%s\n' "$@"
        aatry check --json --language "$language" -b "$base" 2>/dev/null </dev/null |
            sed -n 's/.*"kind":"taken","profiles":\["\(.*\)"\].*/\1/p' | sed 's/","/\n/g' | grep -v '\\'
    )
}

# Offers what may stand at the next place of a question, of which these words stand there.
_aatry_offer_asked() {
    case $1:$# in
    file:1 | exec:1 | cap:1 | net:1) _aatry_offer_names unconfined ;;
    file:3 | exec:2) _aatry_offer 'owner other' ;;
    file:4 | exec:3) mapfile -t COMPREPLY < <(compgen -f -- "$word") ;;
    cap:2) _aatry_offer "$_aatry_capabilities" ;;
    net:2) _aatry_offer "$_aatry_domains" ;;
    net:3) _aatry_offer "$_aatry_types" ;;
    esac
}

# The same behind `who`, where who asks is left out, and `file` may be.
_aatry_offer_letting() {
    case $1 in
    file | exec | cap | net) _aatry_offer_asked "$1" unconfined "${@:2}" ;;
    *) _aatry_offer_asked file unconfined "$@" ;;
    esac
}

# Offers what may stand at the next place of a claim about all paths, of which these words stand there: behind `exec` names alone.
_aatry_offer_claimed() {
    case $1:$# in
    exec:*) _aatry_offer_names unconfined ;;
    *:1) _aatry_offer 'owner other any' ;;
    *:2) ;;
    *) _aatry_offer_names ;;
    esac
}

# Offers options of the command.
_aatry_offer_options() {
    case $1 in
    check) _aatry_offer '-b --included --limit --rules --json --language --color -h --help --' ;;
    why | who) _aatry_offer '-b --verbose --json --language --color -h --help --' ;;
    never | always) _aatry_offer '-b --limit --names --verbose --json --language --color -h --help --' ;;
    reach) _aatry_offer '-b --dot --limit --verbose --json --language --color -h --help --' ;;
    log) _aatry_offer '-b --denied --globs --profile --rules --since --strict --verbose --json --language --color -h --help --' ;;
    diff) _aatry_offer '--all --limit --log --questions --quiet-audit --stat --verbose --json --language --color -h --help --' ;;
    session) _aatry_offer '-b --language --color -h --help --' ;;
    test) _aatry_offer '-b --accept --language --color -h --help --' ;;
    esac
}

# Offers the files at the top of the folder, without those that are passed over.
_aatry_offer_files() {
    local found
    while IFS= read -r found; do
        case ${found##*/} in
        .* | README | *~ | *.dpkg-* | *.pacsave | *.pacnew | *.rpmnew | *.rpmsave | *.orig | *.rej) continue ;;
        esac
        if [ -f "$found" ]; then COMPREPLY+=("${found##*/}"); fi
    done < <(compgen -f -- "$base/$word")
}

_aatry() {
    local word=${COMP_WORDS[COMP_CWORD]} command=${COMP_WORDS[1]} base=/etc/apparmor.d language=4 options=yes awaited='' at before
    local -a words=()
    COMPREPLY=()
    if [ "$word" = = ]; then word=; fi
    if [ "$COMP_CWORD" -eq 1 ]; then
        _aatry_offer 'check why log who never always reach diff session test -h --help -V --version'
        return
    fi

    # The words before, from the left: behind `--` none is an option, the last -b counts, and its folder stands in its word or is the next one, as
    # what other options take does. Bash takes a `=` for a word of its own. The others are the command's own words.
    for ((at = 2; at < COMP_CWORD; at++)); do
        before=${COMP_WORDS[at]}
        if [ -n "$awaited" ]; then
            if [ "$before" = = ]; then continue; fi
            case $awaited in
            folder) base=$(_aatry_bare "$before") ;;
            language) language=$before ;;
            esac
            awaited=
        elif [ -n "$options" ] && [[ $before == -?* ]]; then
            case $before in
            --) options= ;;
            -b) awaited=folder ;;
            -b=*) base=$(_aatry_bare "${before#*=}") ;;
            -b*) base=$(_aatry_bare "${before#-b}") ;;
            --language) awaited=language ;;
            --color) awaited=color ;;
            --profile) awaited=profile ;;
            --since) awaited=time ;;
            --limit) awaited=limit ;;
            --log | --questions) awaited=file ;;
            esac
        else
            words+=("$(_aatry_bare "$before")")
        fi
    done

    case $awaited:$command in
    language:*) _aatry_offer '3 4' ;;
    color:*) _aatry_offer 'auto always never' ;;
    folder:*) mapfile -t COMPREPLY < <(compgen -d -- "$word") ;;
    file:*) mapfile -t COMPREPLY < <(compgen -f -- "$word") ;;
    profile:*) _aatry_offer_names ;;
    time:* | limit:*) ;;
    *)
        if [ -n "$options" ] && [[ $word == -* ]]; then
            _aatry_offer_options "$command"
            return
        fi
        case $command:${#words[@]} in
        why:0 | who:0) _aatry_offer 'file exec cap net -b' ;;
        why:*) _aatry_offer_asked "${words[@]}" ;;
        who:*) _aatry_offer_letting "${words[@]}" ;;
        never:0) _aatry_offer exec ;;
        always:0) ;;
        never:* | always:*) _aatry_offer_claimed "${words[@]}" ;;
        reach:*) _aatry_offer_names unconfined ;;
        diff:*) mapfile -t COMPREPLY < <(compgen -d -- "$word") ;;
        test:* | log:*) mapfile -t COMPREPLY < <(compgen -f -- "$word") ;;
        check:*) if [[ $word != */* ]]; then _aatry_offer_files; fi ;;
        esac
        ;;
    esac
}

complete -o filenames -F _aatry aatry
