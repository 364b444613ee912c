#!/bin/sh
# Prints the seconds and the memory that `b2 -n` takes: many `make` calls in one Jamroot, one program of many sources, many libraries
# in Jamfiles of their own; and how many bytes of memory that is for a byte of project text. It runs the program ./b2 that setup.sh
# leaves, or the one that B2 names; and on the same projects the b2 of Boost.Build beside it: /usr/bin/b2, where Debian's packages put
# it, or the one that BOOST_B2 names. Where that one ends with status 1 the project is too large for it.
set -eu
. "$(dirname "$0")/program.sh"
cd "$work"

boost=${BOOST_B2:-/usr/bin/b2}
# Our own program may have been installed there too; it has no version to tell.
case $("$boost" --version 2>/dev/null || true) in
    *Boost.Build*|*B2\ *) ;;
    *) boost=; echo "The b2 of Boost.Build is not there: ours is measured alone." ;;
esac

# part NAME: shows the steps of the project in the present folder
part() {
    TEXT=$(cat Jamroot $(find . -name Jamfile) | wc -c) python3 "$top/bench/measure.py" "$1" "$program" -n
    if [ -n "$boost" ]; then
        python3 "$top/bench/measure.py" "$1, Boost.Build" "$boost" -n -d1
    fi
}

# sources FORMAT COUNT: empty files with the numbers from 1 on, since Boost.Build refuses a source that is not there
sources() {
    seq -f "$1" "$2" | xargs touch
}

for count in 2000 10000 20000; do
    { echo 'actions join { cat $(>) > $(<) }'
        awk -v n="$count" 'BEGIN { for (i = 1; i <= n; i++) printf "make t%d : s%d : @join ;\n", i, i }'; } > Jamroot
    sources 's%.0f' "$count"
    part "$count calls of make"
done

for count in 2000 4000; do
    { echo 'using gcc ;'
        awk -v n="$count" 'BEGIN { printf "exe app :"; for (i = 1; i <= n; i++) printf " s%d.cpp", i; print " ;" }'; } > Jamroot
    sources 's%.0f.cpp' "$count"
    part "a program of $count sources"
done

echo 'using gcc ;' > Jamroot
for i in $(seq 100); do
    echo "build-project l$i ;" >> Jamroot
    mkdir "l$i"
    awk -v name="l$i" 'BEGIN { printf "lib %s :", name; for (k = 1; k <= 20; k++) printf " s%d.cpp", k; print " : <link>static ;" }' > "l$i/Jamfile"
    sources "l$i/s%.0f.cpp" 20
done
part "100 libraries of 20 sources"

find . -name Jamfile -delete
awk 'BEGIN { for (i = 0; i < 32768; i++) print "# a comment of thirty-two bytes." }' | head -c 1048576 > Jamroot
part "1 MiB of comments"
