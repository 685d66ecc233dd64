# Completions of aaset for bash: source this file, or put it into /usr/share/bash-completion/completions/ as aaset.

# A word as it was typed, without quotes and backslashes, and with the home folder in the place of a `~` at its beginning.
_aaset_bare() {
    local word=$1
    if [[ $word == \~ || $word == \~/* ]]; then word=$HOME${word#\~}; fi
    printf '%s' "${word//[\\\"\']/}"
}

_aaset() {
    local word=${COMP_WORDS[COMP_CWORD]} base=/etc/apparmor.d options=yes awaited='' at before found
    COMPREPLY=()
    if [ "$word" = = ]; then word=; fi

    # The words before, from the left: behind `--` each one is a NAME, the last -b counts, and its folder stands in its word or is the
    # next one, as that of --language does. Bash takes a `=` for a word of its own.
    for ((at = 1; at < COMP_CWORD; at++)); do
        before=${COMP_WORDS[at]}
        if [ -n "$awaited" ]; then
            if [ "$before" != = ]; then
                if [ "$awaited" = folder ]; then base=$(_aaset_bare "$before"); fi
                awaited=
            fi
        elif [ -n "$options" ]; then
            case $before in
            --) options= ;;
            -b | -Cb) awaited=folder ;;
            --language) awaited=language ;;
            -b=* | -Cb=*) base=$(_aaset_bare "${before#*=}") ;;
            -b* | -Cb*) base=$(_aaset_bare "${before#*b}") ;;
            esac
        fi
    done

    if [ "$awaited" = language ]; then
        mapfile -t COMPREPLY < <(compgen -W '3 4' -- "$word")
    elif [ -n "$awaited" ]; then
        # The folder of -b.
        mapfile -t COMPREPLY < <(compgen -d -- "$word")
    elif [ -n "$options" ] && [[ $word == -* ]]; then
        mapfile -t COMPREPLY < <(compgen -W '-C -b --language -h --help -V --version --' -- "$word")
    elif [[ $word == /* ]]; then
        mapfile -t COMPREPLY < <(compgen -f -- "$word")
    else
        # A relative NAME lies below the folder. One that ends in `/` declares a folder, and may go on.
        while IFS= read -r found; do
            if [ -d "$found" ]; then found+=/; fi
            COMPREPLY+=("${found#"$base"/}")
        done < <(compgen -f -- "$base/$word")
        if [[ ${#COMPREPLY[@]} -eq 1 && ${COMPREPLY[0]} == */ ]]; then compopt -o nospace 2>/dev/null || true; fi
    fi
}

complete -o filenames -F _aaset aaset
