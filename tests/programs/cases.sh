# What the cases of all programs call. A case is set up by `table`, `definitions`, `given` and `wanted`, and tried by
# `ends`, which judges it and sets up the next one, empty. In `transcript` and in the words of `tabs` a `|` is a TAB.
# shellcheck shell=bash

: "${top:?}" "${room:?}"

passed=0
failed=0

# The folder that the program runs in, its standard input, what it is to write, and what it wrote.
here=$room/here
input=$room/input
answer=$room/wanted
output=$room/output
complaints=$room/complaints

# How long one run may take, in seconds, and about how long all of them: what is left then gets a second each.
limit=60
whole=240
allowed() {
    local left=$((whole - SECONDS))
    echo $((left < 1 ? 1 : left < limit ? left : limit))
}

pass() {
    passed=$((passed + 1))
}

# fail CASE WANTED CAME
fail() {
    failed=$((failed + 1))
    printf 'FAILED %s: wanted %s, came %s\n' "$1" "$2" "$3"
}

# skip CASE WHY
skip() {
    printf 'skipped %s: %s\n' "$1" "$2"
}

has() {
    command -v "$1" >/dev/null
}

# Takes a copy of this program for the cases that follow, so that a build beside them changes nothing.
take_program() {
    local from=${built:-$top/crates/$1/out}/$1
    program=$room/bin/$1
    mkdir -p "$room/bin"
    if ! cp "$from" "$program" 2>/dev/null; then
        fail "$1" 'a built program' "no file $from"
        return 1
    fi
    chmod 755 "$program"
    begin
}

# Sets up a case: an empty folder, no input, and nothing to write.
begin() {
    rm -rf "$here"
    mkdir "$here"
    : >"$input"
    : >"$answer"
}

tab=$'\t'
tabs() {
    printf '%s' "${1//|/$tab}"
}

# Adds a table to the case's definitions: table NAME 'COLUMN KIND'..
table() {
    local columns
    printf -v columns ', "%s"' "${@:2}"
    printf '[[table]]\nname = "%s"\ncolumns = [%s]\n\n' "$1" "${columns:2}" >>"$here/tables.toml"
}

# The case's definitions as they stand.
definitions() {
    printf '%s' "$1" >"$here/tables.toml"
}

# Adds lines to the case's input, and to what is to be written.
given() {
    printf '%s\n' "$@" | tr '|' '\t' >>"$input"
}

wanted() {
    printf '%s\n' "$@" | tr '|' '\t' >>"$answer"
}

# ends CASE STATUS WORD..: runs the program in the case's folder, on its input. Where `via` names one of the functions
# below, that one starts it.
ends() {
    local case=$1 status=$2 came=0
    shift 2
    (cd "$here" && "$via" timeout "$(allowed)" "$program" "$@") <"$input" >"$output" 2>"$complaints" || came=$?
    judge "$case" "$status" "$came"
}
via='exec'

from_closed() { "$@" <&-; }
from_folder() { "$@" </; }
to_closed() { "$@" >&-; }
to_full() { "$@" >/dev/full; }
without_environment() { env -i "$@"; }
at_home() { HOME=$room "$@"; }
as_nobody() { setpriv --reuid=65534 --regid=65534 --clear-groups "$@"; }

# The output is a pipe that nobody reads any more, or whose reader goes after three lines.
to_nobody() {
    mkfifo "$room/pipe"
    exec 3<>"$room/pipe"
    exec 4>"$room/pipe" 3<&-
    rm "$room/pipe"
    "$@" >&4 4>&-
}
to_three_lines() {
    "$@" | head -n 3
    return "${PIPESTATUS[0]}"
}

# transcript CASE STATUS WORD..: a case of lines `> GIVEN` and `< WANTED`, each with `|` for a TAB.
transcript() {
    local lines
    lines=$(cat)
    sed -n 's/^> \{0,1\}//p' <<<"$lines" | tr '|' '\t' >>"$input"
    sed -n 's/^< \{0,1\}//p' <<<"$lines" | tr '|' '\t' >>"$answer"
    ends "$@"
}

# talk WORD..: starts a conversation over pipes. Each `says` sends a line and waits for its reply of so many lines, and
# `hangs_up` ends the input and judges the case.
talk() {
    mkfifo "$room/sent" "$room/told"
    (cd "$here" && exec timeout "$(allowed)" "$program" "$@") <"$room/sent" >"$room/told" 2>"$complaints" &
    exec 5>"$room/sent" 6<"$room/told"
    rm "$room/sent" "$room/told"
    unheard=
}

# says LINE REPLY..: nothing more is said once a reply was another one, or none came within ten seconds.
says() {
    local line reply
    [[ -z $unheard ]] || return 0
    printf '%s\n' "${1//|/$tab}" 2>/dev/null >&5 || true
    shift
    for reply; do
        if ! IFS= read -r -t 10 line <&6; then
            line='no reply'
        fi
        if [[ $line != "${reply//|/$tab}" ]]; then
            unheard="'$(brief <<<"$reply")', came '$(brief <<<"$line")'"
            return 0
        fi
    done
}

# hangs_up CASE STATUS
hangs_up() {
    local came=0
    exec 5>&-
    cat <&6 >"$output" || true
    exec 6<&-
    wait $! || came=$?
    if [[ -n $unheard ]]; then
        fail "$1" "the reply ${unheard%, came *}" "${unheard##*, came }"
        begin
    else
        judge "$1" "$2" "$came"
    fi
}
# A program that ended does not end the conversation's other side.
trap : PIPE

# speaks CASE HOW WORD..: a case of talk.py.
speaks() {
    local said=
    if ! has python3; then
        skip "$1" 'there is no python3'
    elif said=$(cd "$here" && timeout "$(allowed)" python3 "$top/tests/programs/talk.py" "$2" "$program" "${@:3}" 2>&1); then
        pass
    else
        said=$(tail -n 1 <<<"${said:-wanted an end, came none in time}")
        said=${said#wanted }
        fail "$1" "${said%, came *}" "${said##*, came }"
    fi
    begin
}

# judge CASE STATUS CAME: the status is this one, what was written is the answer, and nothing is complained of.
judge() {
    if [[ $2 != "$3" ]]; then
        fail "$1" "status $2" "status $3 behind '$(tail -n 1 "$output" | brief)'"
    elif ! cmp -s "$answer" "$output"; then
        differ "$1"
    elif [[ -s $complaints ]]; then
        fail "$1" "nothing on the standard error" "'$(head -n 1 "$complaints" | brief)'"
    else
        pass
    fi
    begin
}

# The case fails at the first line in which its output is another than the answer.
differ() {
    local line=1 ours theirs
    while IFS= read -r ours <&3 && IFS= read -r theirs <&4 && [[ $ours == "$theirs" ]]; do
        line=$((line + 1))
    done 3<"$answer" 4<"$output"
    fail "$1" "line $line '$(line_of "$line" "$answer")'" "'$(line_of "$line" "$output")'"
}

line_of() {
    sed -n "$1{p;q}" "$2" | brief
}

# A text as one line, at most its first 80 bytes, with `|` for a TAB.
brief() {
    head -c 80 | tr '\t\n' '| ' | cat -v | sed 's/ $//'
}
