#!/usr/bin/env bash
# Runs q4, and builds it first where it is missing or older than a source: ./run.sh run < lines
# The words, the streams and the status are the program's own. What is said of building goes to the standard error.
# A build proves one crate after the other and shows a line for each; what the tool says is shown where one fails.
set -eu
top=$(dirname "$(readlink -f "${BASH_SOURCE[0]}")")
program=$top/crates/q4/out/q4

# What each crate of crates.txt stands on. Other names are libraries of the toolchain.
declare -A needs
while IFS=: read -r name below; do
    name=${name%%[ #]*}
    [[ -z $name ]] || needs[$name]=${below%%#*}
done <"$top/crates.txt"

# Puts a crate into the list, behind those that it stands on.
crates=()
list() {
    local below
    [[ -v needs[$1] && " ${crates[*]} " != *" $1 "* ]] || return 0
    for below in ${needs[$1]}; do
        list "$below"
    done
    crates+=("$1")
}
list q4

# Whether the program is there and no source is newer. A folder is newer once a file came, went or was renamed there.
is_fresh() {
    [[ -x $program ]] || return 1
    local crate part kit sources=("$top/crates.txt")
    for crate in "${crates[@]}"; do
        for part in src specs proofs; do
            [[ ! -e $top/crates/$crate/$part ]] || sources+=("$top/crates/$crate/$part")
        done
    done
    if kit=$(command -v rt) && kit=$(dirname "$(readlink -f "$kit")")/../KIT-ID && [[ -e $kit ]]; then
        sources+=("$kit")
    fi
    [[ -z $(find "${sources[@]}" -newer "$program" -print -quit) ]]
}

# Has the toolchain prove and build one crate. Where that fails, its log is shown.
make() {
    cd "$top/crates/$1" || return
    if [[ $1 == q4 ]]; then
        # This also runs the program, on no line.
        rt run -- run
    else
        rt lib
    fi
}

build() {
    local crate began log started
    started=$(date +%s.%N)
    log=$(mktemp)
    trap 'rm -f "$log"' EXIT
    echo "run.sh: q4 is not built yet, or a source is newer: proving ${#crates[@]} crates"
    for crate in "${crates[@]}"; do
        began=$SECONDS
        printf '  %-12s' "$crate"
        if ! (make "$crate") >"$log" 2>&1 </dev/null; then
            printf ' FAILED after %d s\n' $((SECONDS - began))
            cat "$log"
            echo "run.sh: $crate was not built"
            exit 1
        fi
        printf ' %4d s\n' $((SECONDS - began))
    done
    # A source that changed while this went on stays newer than the program.
    touch -d "@$started" "$program"
    rm -f "$log"
    trap - EXIT
}

is_fresh || build >&2
exec "$program" "$@"
