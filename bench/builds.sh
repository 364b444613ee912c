#!/bin/sh
# Prints the seconds and the memory that a build takes beside its commands: many steps whose sources are missing, so that all are
# looked at and skipped; a chain in which each step waits for the one before it, of which the first is missing; and steps that run
# `true`, beside a loop of the shell. It runs the program ./b2 that setup.sh leaves, or the one that B2 names.
set -eu
. "$(dirname "$0")/program.sh"
cd "$work"

measure() {
    python3 "$top/bench/measure.py" "$@"
}

for count in 5000 10000 20000; do
    { echo 'actions join { cat $(>) > $(<) }'
        awk -v n="$count" 'BEGIN { for (i = 1; i <= n; i++) printf "make t%d : s%d : @join ;\n", i, i }'; } > Jamroot
    measure "$count steps without sources" "$program" || true
done

for count in 10000 20000; do
    { echo 'actions join { cat $(>) > $(<) }'
        awk -v n="$count" 'BEGIN { for (i = 1; i <= n; i++) printf "make t%d : bin/t%d : @join ;\n", i, i - 1 }'; } > Jamroot
    measure "a chain of $count steps without a source" "$program" || true
done

{ echo 'rule run ( targets * : sources * : properties * ) { NOTFILE $(targets) ; }'
    echo 'actions run { true }'
    awk 'BEGIN { for (i = 1; i <= 2000; i++) printf "make t%d : : @run ;\n", i }'; } > Jamroot
measure "2,000 steps that run true" "$program"
awk 'BEGIN { for (i = 0; i < 2000; i++) print "sh -c true" }' > short
measure "2,000 times sh -c true in a loop of the shell" sh short
