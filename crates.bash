# The crates of crates.txt, what they stand on, and sums of their texts: sourced by ./build and ./test.
# shellcheck shell=bash disable=SC2034

# The crates in the order of crates.txt, the lowest first, and what each of them stands on of these.
crates=()
declare -A stands_on=()
read_crates() {
    local line name
    while IFS= read -r line; do
        [[ $line =~ ^([a-z][a-z0-9_]*)\ *:\ *(.*)$ ]] || continue
        crates+=("${BASH_REMATCH[1]}")
        stands_on[${BASH_REMATCH[1]}]=${BASH_REMATCH[2]}
    done <crates.txt
    for name in "${crates[@]}"; do
        line=
        # The names stand in one word list.
        # shellcheck disable=SC2086
        for below in ${stands_on[$name]}; do [ -z "${stands_on[$below]+own}" ] || line+=" $below"; done
        stands_on[$name]=$line
    done
}

# Appends to `ordered` the crates that one stands on, the lowest first, and then that crate itself, each once.
ordered=()
declare -A is_ordered=()
order() {
    local below
    [ -z "${is_ordered[$1]:-}" ] || return 0
    is_ordered[$1]=yes
    for below in ${stands_on[$1]}; do order "$below"; done
    ordered+=("$1")
}

# Leaves in `text_sum` a sum of the text of each crate: the names and bytes of all files in its src/, specs/ and proofs/.
declare -A text_sum=()
sum_texts() {
    local name lines
    local -A told=()
    while IFS= read -r line; do
        name=${line#*  crates/}
        told[${name%%/*}]+=$line$'\n'
    done < <(find crates/*/{src,specs,proofs} -type f -print0 2>/dev/null | LC_ALL=C sort -z | xargs -0 sha256sum)
    for name in "${crates[@]}"; do text_sum[$name]=$(sum_of "${told[$name]:-}"); done
}

# Prints a short sum of a text.
sum_of() {
    local sum
    sum=$(printf '%s' "$1" | sha256sum)
    echo "${sum:0:16}"
}
