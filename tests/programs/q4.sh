# The cases of q4. The answers are what docs/PROTOCOL.md and docs/FORMATS.md say, never what the program wrote.
# shellcheck shell=bash

take_program q4 || return 0
: "${top:?}" "${room:?}" "${program:?}" "${here:?}" "${input:?}" "${answer:?}" "${output:?}" "${complaints:?}"

# A refusal that needs nothing but its line.
not_owner=$(tabs 'err|31|not in owner mode')

# ---- Words: all that follow the program's name count.

words_refused() {
    definitions 'no toml'
    given quit
    wanted words
    ends "words '$(brief <<<"$*")'" 2 "$@"
}

words_refused
words_refused ''
words_refused x
words_refused RUN
words_refused 'run '
words_refused --
words_refused -h
words_refused --help
words_refused --version
words_refused $'\xff'
words_refused run x
words_refused run ''
words_refused run run
words_refused run play
words_refused run $'\xff'
words_refused x run
words_refused play x
words_refused play run
words_refused play 1 2 3

# ---- Definitions: `tables.toml` in the working folder, and no other file.

definitions_refused() {
    local word
    for word in run play; do
        definitions "$2"
        given quit
        wanted "definitions: $1"
        ends "$word, definitions '$(brief <<<"$2")'" 3 "$word"
    done
}

# So many letters.
text() {
    head -c "$1" /dev/zero | tr '\0' a
}

# So many columns, or so many tables.
columns() {
    printf "'c%d int', " $(seq "$1")
}
tables() {
    printf "{name = 't%d', columns = ['n int']}, " $(seq "$1")
}

definitions_refused 'not toml' $'\xff'
definitions_refused 'not toml' '[[table]'
definitions_refused 'not toml' 'table = ['
definitions_refused 'not toml' $'table = 1\ntable = 2\n'
definitions_refused 'shape 0' '# no table'
definitions_refused 'shape 0' $'\n'
definitions_refused 'shape 0' 'table = []'
definitions_refused 'shape 0' 'table = 1'
definitions_refused 'shape 0' "tables = [{name = 't', columns = ['n int']}]"
definitions_refused 'shape 0' "[table]
name = 't'
columns = ['n int']
"
definitions_refused 'shape 0' "more = 1
table = [{name = 't', columns = ['n int']}]"
definitions_refused 'count 0' "table = [$(tables 17)]"
definitions_refused 'shape 1' 'table = [1]'
definitions_refused 'shape 1' "table = [{name = 't'}]"
definitions_refused 'shape 1' "table = [{columns = ['n int']}]"
definitions_refused 'shape 1' "table = [{name = 't', columns = ['n int'], key = 1}]"
definitions_refused 'shape 1' "table = [{name = 1, columns = ['n int']}]"
definitions_refused 'shape 1' "table = [{name = 't', columns = 'n int'}]"
definitions_refused 'shape 2' "table = [{name = 't', columns = ['n int']}, {name = 'u', columns = [1]}]"
definitions_refused 'bad name 1 0' "table = [{name = 'T', columns = ['n int']}]"
definitions_refused 'bad name 1 0' "table = [{name = '', columns = ['n int']}]"
definitions_refused 'bad name 1 0' "table = [{name = '1t', columns = ['n int']}]"
definitions_refused 'bad name 1 0' "table = [{name = 'a-b', columns = ['n int']}]"
definitions_refused 'bad name 1 0' "table = [{name = '$(text 65)', columns = ['n int']}]"
definitions_refused 'twice 2 0' "table = [{name = 't', columns = ['n int']}, {name = 't', columns = ['n']}]"
definitions_refused 'count 1' "table = [{name = 't', columns = []}]"
definitions_refused 'count 2' "table = [{name = 't', columns = ['n int']}, {name = 'u', columns = [$(columns 33)]}]"
definitions_refused 'bad name 1 1' "table = [{name = 't', columns = ['']}]"
definitions_refused 'bad name 1 1' "table = [{name = 't', columns = [' int']}]"
definitions_refused 'bad name 1 1' "table = [{name = 't', columns = [\"n\\tint\"]}]"
definitions_refused 'bad name 1 2' "table = [{name = 't', columns = ['n int', 'and text']}]"
definitions_refused 'bad kind 1 1' "table = [{name = 't', columns = ['n']}]"
definitions_refused 'bad kind 1 1' "table = [{name = 't', columns = ['n  int']}]"
definitions_refused 'bad kind 1 1' "table = [{name = 't', columns = ['n INT']}]"
definitions_refused 'bad kind 1 1' "table = [{name = 'jobs', columns = ['prio integer', 'body text']},
    {name = 'hot', columns = ['prio int']}]"
definitions_refused 'twice 1 2' "table = [{name = 't', columns = ['n int', 'n text']}]"

# Definitions of 1,048,576 bytes are read, and a byte more is too many.
definitions_of_size() {
    local last="table = [{name = 't', columns = ['n int']}]"
    { printf '#'; text $(($1 - ${#last} - 2)); printf '\n%s' "$last"; } >"$here/tables.toml"
    given 'insert|t|1' 'insert|jobs|1|a'
}
definitions_of_size 1048576
wanted 'ok|1' 'err|21|no table|1'
ends 'definitions of 1,048,576 bytes' 0 run
definitions_of_size 1048577
wanted 'definitions: too long'
ends 'definitions of 1,048,577 bytes' 3 run

definitions "table = [$(tables 16)]"
given 'insert|t16|1'
wanted 'ok|1'
ends 'sixteen tables' 0 run

definitions "table = [{name = '$(text 64)', columns = [$(columns 32)]}]"
given "insert|$(text 64)$(printf '|%d' $(seq 32))" "insert|$(text 64)|1"
wanted 'ok|1' 'err|20|wrong number of values|32'
ends 'a name of 64 letters and 32 columns' 0 run

# Other files, wherever they stand, are not read: the built-in table is there.
other_files() {
    local file
    for file in "$room/tables.toml" "$room/bin/tables.toml" "$here/table.toml" "$here/Tables.toml" "$here/.tables.toml" \
        "$here/tables" "$here/$1.toml" "$here/q4.toml" "$here/definitions.toml"; do
        printf 'no toml' >"$file"
    done
}
other_files run
given 'insert|jobs|1|a' 'insert|t|1'
wanted 'ok|1' 'err|21|no table|1'
via=at_home ends 'run, the built-in table' 0 run
other_files play
given '1 insert|jobs|1|a' '1 insert|t|1'
wanted '1 ok|1' '1 err|21|no table|1'
via=at_home ends 'play, the built-in table' 0 play
other_files run
: >"$here/tables.toml"
given 'insert|jobs|1|a' 'insert|t|1'
wanted 'ok|1' 'err|21|no table|1'
via=at_home ends 'run, an empty tables.toml' 0 run
other_files play
: >"$here/tables.toml"
given '1 insert|jobs|1|a' '1 insert|t|1'
wanted '1 ok|1' '1 err|21|no table|1'
via=at_home ends 'play, an empty tables.toml' 0 play
other_files run
table t 'n int'
given 'insert|jobs|1|a' 'insert|t|1'
wanted 'err|21|no table|1' 'ok|1'
via=at_home ends 'run, the table of tables.toml' 0 run
other_files play
table t 'n int'
given '1 insert|jobs|1|a' '1 insert|t|1'
wanted '1 err|21|no table|1' '1 ok|1'
via=at_home ends 'play, the table of tables.toml' 0 play
rm -f "$room/tables.toml" "$room/bin/tables.toml"

ln -s nowhere "$here/tables.toml"
given 'insert|jobs|1|a'
wanted 'ok|1'
ends 'a tables.toml that leads nowhere' 0 run

# Definitions that are there and cannot be read.
for word in run play; do
    mkdir "$here/tables.toml"
    given quit
    wanted 'read fault'
    ends "$word, a tables.toml that is a folder" 8 "$word"

    ln -s tables.toml "$here/tables.toml"
    given quit
    wanted 'read fault'
    ends "$word, a tables.toml that leads to itself" 8 "$word"
done
unreadable() {
    table t 'n int'
    chmod 0 "$here/tables.toml"
    wanted 'read fault'
    ends 'a tables.toml that may not be read' 8 run
}
if [[ $(id -u) != 0 ]]; then
    unreadable
elif as_nobody true 2>/dev/null; then
    via=as_nobody unreadable
else
    skip 'a tables.toml that may not be read' 'root may read every file, and there is no setpriv'
fi

# Where there is no desk, nothing is read of the input: all of it is left to who reads on.
leaves_input() {
    local came=0
    wanted "$3" left
    (cd "$here" && "$program" "${@:4}" && exit; status=$?; cat; exit "$status") <<<left >"$output" 2>"$complaints" || came=$?
    judge "$1" "$2" "$came"
}
leaves_input 'wrong words leave the input' 2 words runs
definitions 'no toml'
leaves_input 'faulty definitions leave the input' 3 'definitions: not toml' run

# ---- The commands, in a run.

transcript 'a first session' 0 run <<'END'
> insert|jobs|7|resize a.png
< ok|1
> wait|jobs
< ok|1
> rowid
< ok|1
> select|jobs|10
< rows|1
< row|1|7|resize a.png
> end
< ok
> quit
< bye
> end
END

transcript 'what each mode allows' 0 run <<'END'
> rowid
< err|31|not in owner mode
> end
< err|31|not in owner mode
> abort
< err|31|not in owner mode
> select|jobs|5
< rows|0
> wait|jobs|=0
< ok|0
> rowid
< err|32|no owned row
> insert|jobs|1|a
< ok|1
> select|jobs|5
< rows|0
> abort
< ok
> abort
< err|31|not in owner mode
> select|jobs|5
< rows|1
< row|1|1|a
> wait|jobs|=3600
< ok|1
> insert|jobs|2|b
< ok|2
> select|jobs|5
< rows|1
< row|1|1|a
> abort
< ok
> rowid
< err|31|not in owner mode
> wait|jobs
< ok|1
> rowid
< ok|1
> end
< ok
> end
< err|31|not in owner mode
> select|jobs|5
< rows|1
< row|2|2|b
> wait|jobs|=0
< ok|1
> end
< ok
> wait|jobs
< ok|0
> end
< ok
END

transcript 'a wait in owner mode ends the row first' 0 run <<'END'
> insert|jobs|1|a
< ok|1
> insert|jobs|2|b
< ok|2
> wait|jobs
< ok|1
> wait|jobs
< ok|1
> rowid
< ok|2
> abort
< ok
> select|jobs|10
< rows|1
< row|2|2|b
> quit
< bye
END

transcript 'the oldest row that meets the condition' 0 run <<'END'
> insert|jobs|1|a
< ok|1
> insert|jobs|9|b
< ok|2
> insert|jobs|5|c
< ok|3
> wait|jobs:prio>=5|=0
< ok|1
> rowid
< ok|2
> end
< ok
> wait|jobs:prio>=5
< ok|1
> rowid
< ok|3
> end
< ok
> wait|jobs:prio>=5
< ok|0
END

table t 'n int null' 's text null'
transcript 'nulls' 0 run <<'END'
> insert|t|\N|a
< ok|1
> insert|t|0|\N
< ok|2
> wait|t:not n>5|=0
< ok|1
> rowid
< ok|2
> select|t|9
< rows|1
< row|2|0|\N
> abort
< ok
> wait|t:s='a' and n=n|=0
< ok|0
> insert|t|\N|\Nx
< err|14|bad escape|3
> insert|\N|1|a
< err|14|bad escape|1
> insert|t|1|\\N
< ok|3
> end
< ok
> select|t|9
< rows|3
< row|1|\N|a
< row|2|0|\N
< row|3|1|\\N
END

transcript 'a null in a column that takes none' 0 run <<'END'
> insert|jobs|\N|a
< err|22|bad value|1
> insert|jobs|1|\N
< err|22|bad value|2
END

table hot 'prio int'
table jobs 'prio int' 'body text'
transcript 'the earliest entry that has a row' 0 run <<'END'
> insert|jobs|2|x
< ok|1
> wait|hot|jobs:prio>3|jobs|=0
< ok|3
> select|hot|10
< rows|0
> select|jobs|10
< rows|1
< row|1|2|x
> abort
< ok
> insert|hot|5
< ok|1
> wait|jobs:prio>3|hot|jobs
< ok|2
> select|jobs|10
< rows|0
> rowid
< ok|1
END

table t 'n int'
transcript 'absent values' 0 run <<'END'
> insert|t|3
< ok|1
> wait|t:10/(n-3)>0|=0
< ok|0
> wait|t:not (10/(n-3)>0)|=0
< ok|0
> wait|t
< ok|1
> wait|t
< ok|0
> insert|t|9223372036854775807
< ok|2
> wait|t:n*n*n>0|=0
< ok|0
> wait|t:n*n>0|=0
< ok|1
> rowid
< ok|2
END

transcript 'texts with escapes' 0 run <<'END'
> insert|jobs|-9223372036854775808|a\tb\nc\rd\\e
< ok|1
> insert|jobs|9223372036854775807|
< ok|2
> insert|jobs|0|Grüße, 行列 '
< ok|3
> select|jobs|2
< rows|2
< row|1|-9223372036854775808|a\tb\nc\rd\\e
< row|2|9223372036854775807|
> wait|jobs:body='a\tb\nc\rd\\e'
< ok|1
> wait|jobs:body='Grüße, 行列 '''
< ok|1
> rowid
< ok|3
END

# ---- Refusals of lines, by code.

printf 'end\xff\n\xc3\n' >"$input"
wanted 'err|10|not UTF-8' 'err|10|not UTF-8'
ends 'not UTF-8' 0 run

transcript 'unknown commands' 0 run <<'END'
>
< err|11|unknown command
> jump
< err|11|unknown command
> END
< err|11|unknown command
>  end
< err|11|unknown command
> ends
< err|11|unknown command
> |end
< err|11|unknown command
> ok|1
< err|11|unknown command
END

# These two commands are to come.
transcript 'not built' 0 run <<'END'
> srcid|4|a|1
< err|19|not built
> compact|jobs
< err|19|not built
END

transcript 'numbers of fields' 0 run <<'END'
> insert
< err|12|wrong number of fields
> wait
< err|12|wrong number of fields
> wait|=0
< err|12|wrong number of fields
> select
< err|12|wrong number of fields
> select|jobs
< err|12|wrong number of fields
> select|jobs|1|1
< err|12|wrong number of fields
> rowid|
< err|12|wrong number of fields
> end|1
< err|12|wrong number of fields
> abort|jobs
< err|12|wrong number of fields
> quit|now
< err|12|wrong number of fields
> end
< err|31|not in owner mode
END

transcript 'numbers of commands' 0 run <<'END'
> wait|jobs|=
< err|13|bad number|2
> wait|jobs|=07
< err|13|bad number|2
> wait|jobs|=-0
< err|13|bad number|2
> wait|jobs|jobs|=3601
< err|13|bad number|3
> select|jobs|
< err|13|bad number|2
> select|jobs|x
< err|13|bad number|2
> select|jobs|+1
< err|13|bad number|2
> select|jobs|-1
< err|13|bad number|2
> select|jobs|1001
< err|13|bad number|2
> select|jobs|18446744073709551617
< err|13|bad number|2
> select|mail\q|01
< err|13|bad number|2
> select|jobs|0
< rows|0
> select|jobs|1000
< rows|0
END

transcript 'escapes' 0 run <<'END'
> insert|jobs|1|a\q
< err|14|bad escape|3
> insert|jobs|1\q|a\q
< err|14|bad escape|2
> insert|jobs\|1|a
< err|14|bad escape|1
> insert|mail|1|a\
< err|14|bad escape|3
> wait|jobs|jobs:body='\x'
< err|14|bad escape|2
> select|\j|1
< err|14|bad escape|1
END

transcript 'entries and tables' 0 run <<'END'
> wait|jobs|jobs|jobs|jobs|jobs|jobs|jobs|jobs|jobs|jobs|jobs|jobs|jobs|jobs|jobs|jobs|jobs
< err|25|too many entries
> wait|mail|jobs|jobs|jobs|jobs|jobs|jobs|jobs|jobs|jobs|jobs|jobs|jobs|jobs|jobs|jobs|jobs
< err|25|too many entries
> wait|jobs|jobs|jobs|jobs|jobs|jobs|jobs|jobs|jobs|jobs|jobs|jobs|jobs|jobs|jobs|jobs|=0
< ok|0
> wait|jobs|mail:(
< err|21|no table|2
> wait|=0|jobs
< err|21|no table|1
> wait|Jobs
< err|21|no table|1
> insert|
< err|21|no table|1
> insert|mail|x
< err|21|no table|1
> select|mail|1
< err|21|no table|1
END

transcript 'conditions' 0 run <<'END'
> wait|jobs:prio = 07
< err|24|bad condition|1|7
> wait|jobs:prio = 'a
< err|24|bad condition|1|7
> wait|jobs:size > 1 or
< err|24|bad condition|1|11
> wait|jobs:prio<2<3
< err|24|bad condition|1|6
> wait|jobs:prio=1:2
< err|24|bad condition|1|6
> wait|jobs|jobs:prio>|jobs:size
< err|24|bad condition|2|5
> wait|jobs:((((((((((((((((((((((((((((((((1
< err|24|bad condition|1|33
> wait|jobs:(((((((((((((((((((((((((((((((((1
< err|27|condition too deep|1|32
> wait|jobs:size>1
< err|28|no column|1|0
> wait|jobs:prio=1 and rank=1
< err|28|no column|1|11
> wait|jobs:prio=body
< err|29|wrong kinds|1|5
> wait|jobs:body
< err|29|wrong kinds|1|0
> wait|jobs:-prio*2+1 = 3 and not body <> ''|=0
< ok|0
> wait|jobs:|=0
< ok|0
END

given 'wait|jobs:prio > '
wanted 'err|24|bad condition|1|7'
ends 'a condition that ends in a blank' 0 run

# A condition of 1,024 bytes is one, and a byte more is too many.
given "wait|jobs:prio$(printf '%*s' 1020 '')" "wait|jobs|jobs:prio$(printf '%*s' 1021 '')"
wanted 'ok|0' 'err|30|condition too long|2|1024'
ends 'the longest condition' 0 run

transcript 'values' 0 run <<'END'
> insert|jobs
< err|20|wrong number of values|2
> insert|jobs|1
< err|20|wrong number of values|2
> insert|jobs|x|a|b
< err|20|wrong number of values|2
> insert|jobs|x|a
< err|22|bad value|1
> insert|jobs||a
< err|22|bad value|1
> insert|jobs|07|a
< err|22|bad value|1
> insert|jobs|-0|a
< err|22|bad value|1
> insert|jobs|1\t|a
< err|22|bad value|1
> insert|jobs|9223372036854775808|a
< err|22|bad value|1
> insert|jobs|-9223372036854775809|a
< err|22|bad value|1
> select|jobs|10
< rows|0
END

table t 'body text'
given "insert|t|$(text 65535)" "insert|t|$(text 65536)"
wanted 'ok|1' 'err|22|bad value|1'
ends 'the longest text' 0 run

# Sixteen texts, of which fifteen are as long as a text may be and the last one has this length.
sixteen_texts() {
    local long
    long=$(text 65535)
    printf 'insert|t'
    printf "|$long%.0s" {1..15}
    printf '|%s' "$(text "$1")"
}
columns_of_text=()
for number in {1..16}; do
    columns_of_text+=("c$number text")
done

table t "${columns_of_text[@]}"
given "$(sixteen_texts 65488)" "$(sixteen_texts 65487)"
wanted 'err|23|row too long' 'ok|1'
ends 'the longest row' 0 run

# ---- Many sessions, in a play.

transcript 'labels' 0 play <<'END'
> 0 end
< 0 err|15|bad label
> 1 end
< 1 err|31|not in owner mode
> 1 quit
< 1 bye
> 1
> 65 end
< 0 err|15|bad label
> 64 end
< 64 err|31|not in owner mode
> 01 end
< 0 err|15|bad label
> -1 end
< 0 err|15|bad label
> 100 end
< 0 err|15|bad label
> end
< 0 err|15|bad label
>
< 0 err|15|bad label
>  1 end
< 0 err|15|bad label
> 1|end
< 0 err|15|bad label
> 1  end
< 1 err|11|unknown command
> 1 quit
< 1 bye
> 1 quit
< 1 bye
> 2
END

given '2 ' '3 quit '
wanted '2 err|11|unknown command' '3 err|11|unknown command'
ends 'a label with no command' 0 play

transcript 'a row that was given back' 0 play <<'END'
> 1 insert|jobs|1|a
< 1 ok|1
> 1 insert|jobs|1|b
< 1 ok|2
> 1 wait|jobs:body='a'|=0
< 1 ok|1
> 2 wait|jobs:body='a'|=0
< 2 ok|0
> 1 abort
< 1 ok
> 2 wait|jobs|=0
< 2 ok|1
> 2 rowid
< 2 ok|1
END

transcript 'a session that left with a row' 0 play <<'END'
> 1 insert|jobs|7|a
< 1 ok|1
> 1 wait|jobs|=0
< 1 ok|1
> 1
> 2 wait|jobs|=0
< 2 ok|1
> 2 rowid
< 2 ok|1
> 3 select|jobs|9
< 3 rows|0
> 2 select|jobs|9
< 2 rows|1
< 2 row|1|7|a
> 2 quit
< 2 bye
> 3 select|jobs|9
< 3 rows|1
< 3 row|1|7|a
> 2 rowid
< 2 err|31|not in owner mode
END

# The tour of the README.
for tour in "$top"/crates/q4/data/*.play; do
    cp "$top/crates/q4/data/tables.toml" "$here"
    cp "$tour" "$input"
    cp "${tour%.play}.replies" "$answer"
    ends "the tour, $(basename "$tour" .play)" 0 play
done

# 200,000 lines of four sessions: inserts, looks behind rows that do not meet the first condition, ends, rows that are
# given back. The replies are those of a model.
long_play='200,000 lines of four sessions'
if has python3; then
    load() {
        python3 "$top/tests/programs/load.py" "$@"
    }
    load lines 200000 >"$input"
    load replies 200000 >"$answer"
    ends "$long_play" 0 play
else
    skip "$long_play" 'there is no python3'
fi

# ---- Full tables and histories.

table t "${columns_of_text[@]}"
longest_row=$(sixteen_texts 65487 | tr '|' '\t')
for number in {1..33}; do
    printf '%s\n' "$longest_row"
done >"$input"
wanted "$(printf 'ok|%d\n' {1..32})" 'err|42|table bytes|33554432'
empty_row="insert|t$(printf '|%.0s' {1..16})"
given 'wait|t' end "$empty_row" "$empty_row"
wanted 'ok|1' ok 'ok|33' 'ok|34'
ends 'a table of 33,554,432 bytes' 0 run

yes "$(tabs 'insert|t|1')" | head -n 250001 >"$input"
table t 'n int'
seq -f "$(tabs 'ok|%.0f')" 250000 >"$answer"
given 'wait|t' end 'insert|t|2' 'insert|t|2'
wanted 'err|41|table full' 'ok|1' ok 'ok|250001' 'err|41|table full'
ends 'a table of 250,000 rows' 0 run

yes rowid | head -n 1048571 >"$input"
yes "$not_owner" | head -n 1048570 >"$answer"
wanted 'err|70|history full|1048572'
ends 'a full history' 0 run

yes '1 rowid' | head -n 1048571 >"$input"
yes "1 $not_owner" | head -n 1048570 >"$answer"
given '1 quit' '2' $'2 \xff' '3 end'
wanted '1 err|70|history full|1048572' '1 bye' '2 err|70|history full|1048573'
ends 'a history too full to open a session' 10 play

# ---- Lines and the end of the input.

for word in run play; do
    ends "$word, no input" 0 "$word"
done

given quit
wanted bye
ends 'quit alone' 0 run

given quit end jump
wanted bye
ends 'lines behind quit' 0 run

printf 'end' >"$input"
wanted 'err|61|partial line'
ends 'run, a partial line' 6 run
printf 'end\n1' >"$input"
wanted 'err|31|not in owner mode' 'err|61|partial line'
ends 'run, a partial line behind a line' 6 run
printf 'quit\nend' >"$input"
wanted bye
ends 'a partial line behind quit' 0 run
printf '1 end\n1' >"$input"
wanted '1 err|31|not in owner mode' '0 err|61|partial line'
ends 'play, a partial line' 6 play

text 4194303 >"$input"
given '' quit
wanted 'err|11|unknown command' bye
ends 'the longest line' 0 run
text 4194303 >"$input"
wanted 'err|61|partial line'
ends 'the longest line without its newline' 6 run
text 4194304 >"$input"
wanted 'err|60|line too long'
ends 'run, a line too long that ends the input' 6 run
text 4194304 >"$input"
given '' quit
wanted 'err|60|line too long'
ends 'run, a line too long' 6 run
printf '1 end\n' >"$input"
text 5000000 >>"$input"
given '' '1 end'
wanted '1 err|31|not in owner mode' '0 err|60|line too long'
ends 'play, a line too long' 6 play

# A terminal's line ends: byte 13 before the newline belongs to the last field.
printf '%s\r\n' quit "$(tabs 'insert|jobs|1|a')" "$(tabs 'select|jobs|1')" "$(tabs 'wait|jobs|=0')" \
    "$(tabs 'wait|jobs')" end >"$input"
wanted 'err|11|unknown command' 'err|14|bad escape|3' 'err|13|bad number|2' 'err|13|bad number|2' \
    'err|14|bad escape|1' 'err|11|unknown command'
ends 'line ends of bytes 13 and 10' 0 run
printf '%s\r\n' '1 quit' 1 >"$input"
wanted '1 err|11|unknown command' '0 err|15|bad label'
ends 'line ends of bytes 13 and 10 in a play' 0 play

yes rowid | head -n 100000 >"$input"
yes "$not_owner" | head -n 100000 >"$answer"
ends '100,000 lines' 0 run

# ---- Long replies.

# many_rows ROWS LENGTH SPELLED LABEL: rows of one text, this letter so many times, which are shown twice.
many_rows() {
    local text number label=$4
    text=$(printf "$3%.0s" $(seq "$2"))
    for ((number = 1; number <= $1; number++)); do
        printf '%sinsert\tjobs\t%d\t%s\n' "$label" "$number" "$text" >&3
        printf '%sok\t%d\n' "$label" "$number" >&4
    done 3>>"$input" 4>>"$answer"
    for ((number = 1; number <= $1; number++)); do
        printf '%srow\t%d\t%d\t%s\n' "$label" "$number" "$number" "$text"
    done >"$room/rows"
    given "${label}select|jobs|1000" "${label}select|jobs|1000"
    { printf '%srows\t%d\n' "$label" "$1"; cat "$room/rows"; } >"$room/reply"
    cat "$room/reply" "$room/reply" >>"$answer"
}
many_rows 1000 400 a ''
ends '1,000 rows of 400 bytes' 0 run
many_rows 1000 400 a '64 '
ends '1,000 rows of 400 bytes in a play' 0 play
for length in 4079 4080 4081; do
    many_rows 1 "$length" a ''
    ends "a reply of $((length + 16)) bytes" 0 run
done
many_rows 20 65535 a ''
ends 'rows of 65,535 bytes' 0 run
many_rows 4 65535 "\\\\\\\\" ''
ends 'rows of 65,535 escaped bytes' 0 run

table t "${columns_of_text[@]}"
longest_row=$(sixteen_texts 65487 | sed 's/a/\\\\/g')
given "$longest_row" 'select|t|9'
wanted 'ok|1' 'rows|1' "row|1${longest_row#insert|t}"
ends 'the longest row, each of its bytes escaped' 0 run

# ---- Streams.

given end
via=from_closed ends 'a closed input' 8 run
given '1 end'
via=from_closed ends 'a closed input in a play' 8 play
via=from_folder ends 'an input that is a folder' 8 run

for via in to_closed to_full to_nobody; do
    ends "$via, nothing to write" 0 run
    given end end
    ends "$via, a run" 7 run
    given '1 end' '2 end'
    ends "$via, a play" 7 play
    ends "$via, words" 7 words
    definitions 'no toml'
    ends "$via, a fault of definitions" 7 run
    mkdir "$here/tables.toml"
    ends "$via, definitions that cannot be read" 7 run
done
via='exec'

yes rowid | head -n 20000 >"$input"
wanted "$not_owner" "$not_owner" "$not_owner"
via=to_three_lines ends 'a reader that goes' 7 run

table t 'n int'
given 'insert|t|1' quit
wanted 'ok|1' bye
via=without_environment ends 'no environment' 0 run

# A session in memory leaves the folder as it was.
leaves_folder() {
    local before after came=0
    table t 'n int'
    given "${2}insert|t|1" "${2}wait|t"
    wanted "${2}ok|1" "${2}ok|1"
    before=$(ls -lA --full-time "$here")
    (cd "$here" && "$program" "$1") <"$input" >"$output" 2>"$complaints" || came=$?
    after=$(ls -lA --full-time "$here")
    if [[ $before != "$after" ]]; then
        fail "$1 leaves the folder" "$(brief <<<"$before")" "$(brief <<<"$after")"
        begin
    else
        judge "$1 leaves the folder" 0 "$came"
    fi
}
leaves_folder run ''
leaves_folder play '7 '

# Little memory: the least in which the program starts, and half a megabyte more. A line of 4,000,000 bytes has no room.
in_little_memory() {
    (ulimit -v "$memory" && exec "$@")
}
for ((memory = 2000; memory < 20000; memory += 500)); do
    ! (in_little_memory "$program" run) </dev/null >"$output" 2>&1 || break
done
if ((memory < 20000)); then
    memory=$((memory + 500))
    text 4000000 >"$input"
    given '' end
    wanted 'err|90|out of memory'
    via=in_little_memory ends 'run, no memory for a line' 9 run
    given '1 end'
    text 4000000 >>"$input"
    given '' '1 end'
    wanted '1 err|31|not in owner mode' '0 err|90|out of memory'
    via=in_little_memory ends 'play, no memory for a line' 9 play
    for word in run play; do
        definitions_of_size 1048576
        wanted 'out of memory'
        via=in_little_memory ends "$word, no memory for the definitions" 9 "$word"
    done
else
    skip 'no memory for a line' 'the program starts in no little memory'
fi

# opens CASE WORD: beside what the system loads a program from, one file is opened, tables.toml.
opens() {
    local came=0
    if ! has strace || ! strace -qq -o "$room/trace" true 2>/dev/null; then
        skip "$1" 'there is no strace'
        begin
        return 0
    fi
    wanted tables.toml
    (cd "$here" && exec strace -qq -f -e trace=open,openat,openat2,creat -o "$room/trace" "$program" "$2") \
        <"$input" >"$complaints" 2>&1 || came=$?
    sed -n 's/^[^"]*"\([^"]*\)".*/\1/p' "$room/trace" | grep -v -e '^/etc/ld\.' -e '/lib[^/]*\.so' >"$output" || true
    judge "$1" 0 "$came"
}
for word in run play; do
    table t 'n int'
    opens "$word, the files that are opened" "$word"
    opens "$word, the files that are opened where there is no tables.toml" "$word"
done

# ---- Conversations: a client that waits for each reply is served.

talk run
for ((number = 1; number <= 250; number++)); do
    says "insert|jobs|$number|a" "ok|$number"
    says 'wait|jobs' 'ok|1'
    says rowid "ok|$number"
    says end ok
done
says quit bye
hangs_up '1,000 lines, each sent behind the reply to the one before' 0

talk play
for ((number = 1; number <= 125; number++)); do
    says "1 insert|jobs|$number|a" "1 ok|$number"
    says '2 wait|jobs' '2 ok|1'
    says '1 select|jobs|10' '1 rows|0'
    says '2 quit' '2 bye'
    says '1 select|jobs|10' '1 rows|1' "1 row|$number|$number|a"
    says '3 wait|jobs' '3 ok|1'
    says '3 end' '3 ok'
    says 4
done
hangs_up '1,000 lines of a play, each sent behind the reply to the one before' 0

talk run
rows=()
for ((number = 1; number <= 30; number++)); do
    rows+=("row|$number|$number|$(text 300)")
    says "insert|jobs|$number|$(text 300)" "ok|$number"
done
for ((number = 1; number <= 20; number++)); do
    says 'select|jobs|1000' 'rows|30' "${rows[@]}"
done
hangs_up 'long replies, each waited for' 0

speaks 'a person at a terminal' terminal run
speaks 'how replies go out' pieces run
