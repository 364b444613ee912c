#!/bin/sh
# Prints the seconds and the memory that evaluation takes: turns, lists, looking up, levels. It first builds
# crates/b2_transcript, whose transcript commands it gives.
set -eu
. "$(dirname "$0")/transcript.sh"

# part NAME: runs the commands of the file `commands`, which are those of evaluation
part() {
    { echo 'part evaluation'; cat commands; } > all
    python3 "$top/bench/measure.py" "$1" sh -c 'exec "$0" < all' "$program"
}

# file: the standard input as files that are run one after the other, of 20,000 lines, since a text may have 1 MiB
file() {
    echo 'turns 4000000000'
    awk 'NR % 20000 == 1 { print "run Jamroot" } { print "| " $0 }'
}

# lines FORMAT COUNT: the format so many times with the numbers from 1 on
lines() {
    awk -v text="$1" -v n="$2" 'BEGIN { for (i = 1; i <= n; i++) printf text "\n", i, i }'
}

{ echo 'turns 1000000'; echo 'run Jamroot'; echo '| while a { }'; } > commands
part '1,000,000 rounds of while'

{ echo 'turns 1000000'; echo 'run Jamroot'
    echo '| rule f { }'; echo '| while a { f ; f ; f ; f ; f ; f ; f ; f ; f ; f ; }'; } > commands
part '1,000,000 turns, half of them calls of a rule'

for count in 25000 50000 100000; do
    { lines 'L += x%d ;' "$count"; } > appends
    { file < appends; } > commands
    part "$count statements that add to one list"
    { cat appends; echo 'for X in $(L) { }'; } | file > commands
    part "$count statements that add to one list, and for over it"
    { echo 'L = a b c d e f g h i j ;'
        echo 'for A in $(L) { for B in $(L) { for C in $(L) { for D in $(L) { for E in $(L) { M += x ; } } } } }'; } | file > commands
    [ "$count" = 100000 ] && part '100,000 elements added in five loops'
done

for count in 10 100000; do
    { lines 'V%d = x%d ;' "$count"; echo 'for X in $(V1) { }'; } > many
    { cat many; echo 'N = a b c d e f g h i j ;'
        echo 'for A in $(N) { for B in $(N) { for C in $(N) { for D in $(N) { for E in $(N) { W = $(V1) ; } } } } }'; } | file > commands
    part "100,000 look-ups among $count variables"
    { lines 'rule r%d { return x%d ; }' "$count"; echo 'N = a b c d e f g h i j ;'
        echo 'for A in $(N) { for B in $(N) { for C in $(N) { for D in $(N) { for E in $(N) { r1 ; } } } } }'; } | file > commands
    part "100,000 calls among $count rules"
done

{ echo 'rule f { local X = 1 ; if a { for Y in b { while c { switch d { case d : module m { g ; } } } } } }'
    echo 'rule g { on t { f ; } }'; echo 'f ;'; } | file > commands
part '256 levels, of blocks of all kinds'
