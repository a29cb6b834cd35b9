# The cases of run.sh, over a repository of three crates and a toolchain that only writes down what it is told. The
# program that it builds tells its folder and its words, hands its input on and ends with status 3.
# shellcheck shell=bash

: "${top:?}" "${room:?}" "${here:?}" "${input:?}" "${answer:?}" "${output:?}" "${complaints:?}"

copy="$room/a copy"
mkdir -p "$room/tools" "$copy/crates/low/src" "$copy/crates/low/specs" "$copy/crates/low/proofs" "$copy/crates/q4/src" \
    "$copy/crates/other/src"
cp "$top/run.sh" "$copy/run.sh"
printf '# NAME: LIBRARY ..\nq4: low memchr\nother: low\nlow: itoa # a comment\n' >"$copy/crates.txt"
touch "$copy/crates/low/src/lib.rt" "$copy/crates/low/specs/Low.antt" "$copy/crates/low/proofs/Low.antt" \
    "$copy/crates/q4/src/main.rt" "$copy/crates/other/src/lib.rt" "$room/KIT-ID"

cat >"$room/tools/rt" <<'END'
#!/usr/bin/env bash
echo "$(basename "$PWD"): $*" >>"$CALLS"
! read -r line || echo "$line" >>"$CALLS"
[[ ! -e src/edited.rt ]] || echo >src/edited.rt
[[ ! -e src/open_goal.rt ]] || { echo 'one goal is open'; exit 1; }
echo 'logic=proved'
[[ $1 == run ]] || exit 0
mkdir -p out
printf '#!/usr/bin/env bash\necho "$PWD: $*"\ncat\nexit 3\n' >out/q4
chmod 755 out/q4
END
chmod 755 "$room/tools/rt"
export CALLS=$room/calls

with_tools() {
    PATH=$room/tools:$PATH "$@"
}

# starts CASE CALLS STATUS: `run.sh` is started with words that have blanks, and calls the toolchain just so.
starts() {
    local calls
    : >"$CALLS"
    printf 'one\ntwo\n' >"$input"
    [[ $3 != 3 ]] || printf '%s: run  a b \none\ntwo\n' "$here" >"$answer"
    (cd "$here" && with_tools "$copy/run.sh" run ' a b ') <"$input" >"$output" 2>"$room/said" && came=0 || came=$?
    calls=$(paste -s -d , "$CALLS")
    if [[ $calls != "$2" ]]; then
        fail "$1" "the calls '$2'" "'$calls'"
        begin
    else
        : >"$complaints"
        judge "$1" "$3" "$came"
    fi
}

# said CASE PATTERN: the last start said this on the standard error.
said() {
    if [[ $(cat "$room/said") =~ ^$2$ ]]; then
        pass
    else
        fail "$1" "'$2'" "'$(brief <"$room/said")'"
    fi
}

begin
all='low: lib,q4: run -- run'
starts 'a first start builds' "$all" 3
said 'a first start shows a line for each crate' '[^ ]*: [^
]*
  low +[0-9]+ s
  q4 +[0-9]+ s'
starts 'a second start builds nothing' '' 3
said 'a second start says nothing' ''

echo >"$copy/crates/low/specs/Low.antt"
starts 'an edit of a crate below is built' "$all" 3
touch "$copy/crates/low/proofs/Low.antt"
starts 'an edit of a proof is built' "$all" 3
touch "$copy/crates/q4/src/main.rt"
starts 'an edit of the program is built' "$all" 3
touch "$copy/crates/low/src/more.rt"
starts 'a further file is built' "$all" 3
rm "$copy/crates/low/src/more.rt"
starts 'a file less is built' "$all" 3
touch "$copy/crates.txt"
starts 'another list of crates is built' "$all" 3
touch "$room/KIT-ID"
starts 'another toolchain builds' "$all" 3
touch "$copy/crates/other/src/lib.rt"
starts 'a crate that the program does not stand on is not' '' 3

touch "$copy/crates/low/src/open_goal.rt"
starts 'a crate that is not proved' 'low: lib' 1
said 'a crate that is not proved shows why' '.*one goal is open
run.sh: low was not built'
rm "$copy/crates/low/src/open_goal.rt"
starts 'a crate that is proved again' "$all" 3

# The toolchain edits a crate while it builds it.
touch "$copy/crates/low/src/edited.rt"
starts 'an edit as it is built' "$all" 3
starts 'an edit that came as it was built is built then' "$all" 3
