#!/bin/sh
# Prints the seconds and the memory that commands of the transcript take on large and on hostile texts of the language, of at most
# 1 MiB, and on large logs. What reading a command and printing it again takes is in them. It first builds crates/b2_transcript.
set -eu
. "$(dirname "$0")/transcript.sh"

# measured LABEL: runs the commands of the file `commands`
measured() {
    python3 "$top/bench/measure.py" "$1" sh -c 'exec "$0" < commands' "$program"
}

# part LABEL COMMAND COUNT: runs the command on the file `text`, with a variable X of so many elements
part() {
    { awk -v n="$3" 'BEGIN { printf "part language\nset X :"; for (i = 0; i < n; i++) printf " x"; print "" }'
        printf '%s "' "$2"; cat text; echo '"'; } > commands
    measured "$1"
}

# repeat TEXT COUNT: the text so many times
repeat() {
    awk -v text="$1" -v n="$2" 'BEGIN { for (i = 0; i < n; i++) printf "%s", text }'
}

for size in 131072 1048576; do
    repeat '{ ' $((size / 2)) > text
    part "$size bytes of {" fault 0
    repeat '[ ' $((size / 2)) > text
    part "$size bytes of [" fault 0
    repeat 'a ' $((size / 2)) > text
    part "$size bytes of words" fault 0
    { printf 'if a { } '; repeat 'else if a { } ' $((size / 14 - 1)); } > text
    part "$size bytes of else if" fault 0
    { printf 'if a'; repeat ' || a' $((size / 5 - 2)); printf ' { }'; } > text
    part "$size bytes of ||" fault 0
    { repeat '[ a ] ' $((size / 6 - 1)); printf ';'; } > text
    part "$size bytes of [ a ]" fault 0
    { printf 'switch a { '; repeat 'case b : ' $((size / 9 - 2)); printf '}'; } > text
    part "$size bytes of cases" fault 0
    { printf 'rule r ( '; repeat 'a ' $((size / 2 - 10)); printf ') { }'; } > text
    part "$size bytes of parameters" fault 0
    deep=$(repeat '{ ' 60)$(repeat '} ' 60)
    repeat "$deep" $((size / 240)) > text
    part "$size bytes of braces within braces" fault 0
    repeat 'X = a b c ; ' $((size / 12)) > text
    part "$size bytes of assignments, read" fault 0
    part "$size bytes of assignments, read, printed and read again" print 0
done

printf '%s' '$(X)$(X)' > text
part "a word of 1,000,000 elements" expand_size 1000
for size in 131072 1048576; do
    repeat '$(' $((size / 2)) > text
    part "a word of $size bytes of \$(" expand_size 1000
    repeat '$(X[1])' $((size / 7)) > text
    part "a word of $size bytes of parts of one element" expand_size 1000
    repeat '$(X) b c ' $((size / 9)) > text
    part "a body of $size bytes" expand_body_size 2
    repeat '$(' $((size / 2)) > text
    part "a body of $size bytes of \$(" expand_body_size 2
done

# log LABEL FORMAT COUNT: reads a log of so many lines
log() {
    { printf 'part log\nread_log\n'; awk -v text="$2" -v n="$3" 'BEGIN { for (i = 0; i < n; i++) printf "| " text "␉.\n", i, i, i, i, i, i }'; } > commands
    measured "$1"
}

for count in 10000 100000; do
    log "a log of $count lines" '+1␉cat s%d > bin/t%d␉1␉bin/t%d␉%d␉1␉s%d␉%d' $count
    log "a log of $count lines on one output" '+1␉cat s > bin/t␉1␉bin/t␉%d␉1␉s␉%d' $count
done
