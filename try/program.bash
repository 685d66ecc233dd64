# The program that a script of this folder asks, and the names of what lies below a folder: sourced by ./build, try/debian, try/example
# and try/session, which have a folder for what they make, `folder`.
# shellcheck shell=bash disable=SC2154,SC2034

# Unproved programs are kept here, from one call of a script to the next.
kept_in=$PWD/out/try

# The process that builds, where one is under way.
trying=

# Ends what still builds.
end_building() {
    if [ -n "$trying" ]; then
        kill "$trying" 2>/dev/null || true
        wait "$trying" || true
        trying=
    fi
    rm -f "$kept_in"/*."$$"
}

# Whether a program is there, and no source has changed since it was built.
is_current() {
    [ -x "$1" ] && [ -z "$(find crates crates.txt -path '*/out' -prune -o \( -name '*.rt' -o -name crates.txt \) -newer "$1" -print)" ]
}

# Leaves the program of this name in $kept_in, without its proofs. `rt try` removes what it built when its run has ended: so that run
# gets an input that takes long, and is ended once the program is copied. A copy that tells its version is whole. It is as old as the
# start of the build, so that a source that changes meanwhile is newer; and it comes to its place at once, whatever other script builds.
build_unproved() {
    local name=$1 made="$folder/$1" built words
    command -v rt >/dev/null || { echo "$0: there is no proved program and no rt here: it needs the Rattle kit" >&2; exit 1; }
    # What it is run on while it is copied: it reads lines that ask nothing.
    case $name in
    aaset) words=(folder/) ;;
    aatry) words=(session -b "$PWD/examples") ;;
    esac
    mkdir -p "$kept_in"
    mkdir "$made.try"
    touch "$made.begun"
    head -c 30000000 /dev/zero | tr '\0' '\n' >"$folder/blank"
    (cd "crates/$name" && TMPDIR=$made.try exec rt try -- "${words[@]}") <"$folder/blank" >"$made.said" 2>&1 &
    trying=$!
    while [ ! -x "$made" ] && kill -0 "$trying" 2>/dev/null; do
        sleep 0.1
        built=$(find "$made.try" -type f -perm -u+x -print -quit 2>/dev/null || true)
        if [ -n "$built" ] && cp "$built" "$made.copy" 2>/dev/null && "$made.copy" --version >/dev/null 2>&1; then
            mv "$made.copy" "$made"
        fi
    done
    if [ -x "$made" ]; then
        cp "$made" "$kept_in/$name.$$"
        touch -r "$made.begun" "$kept_in/$name.$$"
        mv "$kept_in/$name.$$" "$kept_in/$name"
    fi
    end_building
    if [ ! -x "$made" ]; then
        echo "The program $name wasn't built:"
        cat "$made.said"
        exit 1
    fi
}

# Sets `program` to the proved one of this name, `aaset` where none is given, where ./build left it and no source has changed since; or
# else to one without its proofs: that which was kept, where no source has changed since, or a new one.
choose_program() {
    local name=${1:-aaset} slow="It is unproved, and some 20 times slower than the proved one, which ./build makes."
    program=$PWD/crates/$name/out/$name
    if is_current "$program"; then
        echo "With the proved program that ./build left, crates/$name/out/$name."
        return
    fi
    program=$kept_in/$name
    if is_current "$program"; then
        echo "With the program that was built without its proofs before, out/try/$name. $slow"
    else
        echo "Building $name without its proofs, with every check at run time: one to two minutes, once. $slow"
        build_unproved "$name"
    fi
}

# Sets `names` to every file by its name below a folder, and every folder with `/` at its end. What a link leads to is taken as it is.
# Hidden files, and what package managers and editors leave, are passed over, as apparmor_parser does; and so is what the further
# words say, which are a condition of find and `-o`.
name_all() {
    local base=$1 skip=(-name '.*' -o -name README -o -name '*~' -o -name '*.dpkg-*') end name
    shift
    for end in rpmnew rpmsave pacnew pacsave orig rej; do
        skip+=(-o -name "*.$end")
    done
    names=()
    while IFS= read -r -d '' name; do names+=("$name"); done < <(
        cd -- "$base" && find -L . -mindepth 1 \( "$@" "${skip[@]}" \) -prune -o -type d -printf '%P/\0' -o -type f -printf '%P\0' | sort -z
    )
}
