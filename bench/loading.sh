#!/bin/sh
# Prints the seconds and the memory that loading takes: many calls in one file, many files, a folder of many names. It first builds
# crates/b2_transcript, whose transcript commands it gives. Each part is measured without its `load` too, so that what the
# commands themselves take can be told apart.
set -eu
. "$(dirname "$0")/transcript.sh"

# part NAME: runs the commands of the file `commands`, without a load and with one
part() {
    { echo 'part loads'; cat commands; } > alone
    python3 "$top/bench/measure.py" "$1, not loaded" sh -c 'exec "$0" < alone' "$program"
    { cat alone; echo 'load'; } > loaded
    python3 "$top/bench/measure.py" "$1" sh -c 'exec "$0" < loaded' "$program"
}

# lines FORMAT COUNT: the format so many times with the numbers from 1 on
lines() {
    awk -v text="$1" -v n="$2" 'BEGIN { for (i = 1; i <= n; i++) printf text "\n", i, i }'
}

for count in 5000 10000 20000; do
    { echo 'new'; echo 'turns 4000000'; echo 'edit Jamroot'; echo '| actions r { cp }'
        lines '| make t%d : s%d : @r ;' "$count"; } > commands
    part "$count calls of make"
done

for count in 500 1000; do
    { echo 'new'; echo 'turns 4000000'; echo 'edit Jamroot'; lines '| build-project d%d ;' "$count"
        awk -v n="$count" 'BEGIN { for (i = 1; i <= n; i++) { printf "edit d%d/Jamfile\n", i
            for (k = 1; k <= 10; k++) printf "| exe t%d : s%d.cpp ;\n", k, k } }'; } > commands
    part "$count files of 10 main targets"
done

for count in 5000 10000; do
    { echo 'new'; echo 'edit Jamroot'; echo '| NAMES = [ glob f/*.c ] ;'; echo '| ECHO $(NAMES[1]) $(NAMES[-1]) ;'
        lines 'edit f/%d.c x' "$count"; } > commands
    part "glob over $count names"
done
