#!/bin/sh
# Prints the seconds and the memory that registering types and generators, and the search for a chain among them, take. It
# first builds crates/b2_transcript.
set -eu
. "$(dirname "$0")/transcript.sh"

part() {
    python3 "$top/bench/measure.py" "$1" "$program" < commands
}

# layers COUNT: types in so many layers of two, and generators from both of each layer to both of the next
layers() {
    awk -v n="$1" 'BEGIN {
        for (i = 0; i < n; i++) printf "register_type T%d.a\nregister_type T%d.b\n", i, i
        for (i = 1; i < n; i++) for (k = 0; k < 4; k++) {
            from = k < 2 ? "a" : "b"; to = k % 2 ? "b" : "a"
            printf "register g%d.%s%s T%d.%s : T%d.%s\n", i, from, to, i - 1, from, i, to
        }
    }'
}

for count in 500 5000; do
    { echo "part refinement"; layers $count; } > commands
    part "$((2 * count)) types in $count layers of two, registered"
    echo "chain T0.a T$((count - 1)).b" >> commands
    part "$((2 * count)) types in $count layers of two, and a chain through them"
done

for count in 1000 10000; do
    { echo "part refinement"; echo "register_type A"; awk -v n=$count 'BEGIN {
        for (i = 0; i < n; i++) printf "register_type T%d\n", i
        for (i = 0; i < n; i++) printf "register in%d A : T%d\nregister on%d T%d : T%d\n", i, i, i, i, (i + 1) % n
    }'; } > commands
    part "$count types in a circle, registered"
    echo "chain A T$((count / 2))" >> commands
    part "$count types in a circle, and a chain to one of them"
    echo "chain T1 T0" >> commands
    part "$count types in a circle, and a chain around it"
done
