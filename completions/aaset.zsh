#compdef aaset
# Completions of aaset for zsh: put this file as _aaset into a folder of fpath, as /usr/share/zsh/site-functions.

# Offers the files and folders of the folder of policy.
_aaset_names() {
    local -a folders=(${(Q)opt_args[-b]:-/etc/apparmor.d})
    _files -W folders
}

_aaset() {
    local curcontext=$curcontext state line
    local -A opt_args
    _arguments -s -S '-C[Loads each profile in complain mode]' '-b+[The policy directory]:DIR:_files -/' \
        '--language=[Reads policy in language N]:N:(3 4)' '(- *)'{-h,--help}'[Prints help]' '(- *)'{-V,--version}'[Prints the version]' \
        '*:NAME: _aaset_names'
}

_aaset "$@"
