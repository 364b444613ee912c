#!/bin/sh
# Prints the seconds that updates take, side by side with ninja, make and the b2 of Boost.Build: updates.sh [RUNS]
#
# The projects are 2,000 and 10,000 steps in a tree, each of which joins two files, and 5 libraries of 20 C++ sources with 100 headers.
# For each of them: the build from nothing with four commands at a time, the build with nothing to do, and the build after one edit. The
# programs run in turns, RUNS times each (5 where it is not given); the medians are printed, and in brackets how many times as long as
# that program ours takes. Ninja and make do the same commands; Boost.Build has its own for C++. After the edit the files are counted
# that each program has made anew. Where valgrind is there, the instructions follow that each program takes for the build with nothing
# to do.
#
# It runs the program ./b2 that setup.sh leaves, or the one that B2 names. What it is compared with is left out where it is not there:
# ninja, make, and the b2 of Boost.Build, which is /usr/bin/b2, where Debian's packages put it, or the one that BOOST_B2 names; that one
# ends with status 1 where a project is too large for it, as 10,000 steps are. It takes ten minutes; nothing else should run then.
set -eu
. "$(dirname "$0")/program.sh"
program=$(realpath "$program")
runs=${1:-5}

boost=${BOOST_B2:-/usr/bin/b2}
# Our own program may have been installed there too; it has no version to tell.
case $("$boost" --version 2>/dev/null || true) in
    *Boost.Build*|*B2\ *) ;;
    *) boost=; echo "The b2 of Boost.Build is not there: it is left out." ;;
esac
for tool in ninja make; do
    command -v "$tool" >/dev/null || echo "$tool is not there: it is left out."
done

# measured WHAT PREPARE: runs what is there in turns
measured() {
    what=$1 prepare=$2
    set -- b2 "'$program' -j4"
    if command -v ninja >/dev/null; then set -- "$@" ninja 'ninja -j4'; fi
    if command -v make >/dev/null; then set -- "$@" make 'make -r -j4'; fi
    if [ -n "$boost" ]; then set -- "$@" boost "'$boost' -j4"; fi
    python3 "$top/bench/medians.py" "$runs" "$what" "$prepare" "$@"
}

# remade FILE: how many files each program has made anew since this one was edited, besides logs and lists of headers
remade() {
    printf '%s, files made anew:' "$what"
    for tool in b2 ninja make boost; do
        if [ -d "$tool/bin" ]; then
            printf ' %s %s' "$tool" "$(find "$tool/bin" "$tool"/l*/bin -type f -newer "$tool/$1" ! -name '*.log' ! -name '*.d' ! -name '*.jam' 2>/dev/null | wc -l)"
        fi
    done
    echo
}

# counted FOLDER COMMAND ..: how many instructions a program takes, in millions; it is given 10 minutes
counted() {
    tool=$1; shift
    if (cd "$tool" && timeout 600 valgrind --tool=callgrind --callgrind-out-file=/dev/null "$@" >/dev/null 2>"$work/counts" </dev/null); then
        printf ' %s %s' "$tool" "$(awk '/Collected :/ { printf "%.1f", $NF / 1000000 }' "$work/counts")"
    else
        printf ' %s failed' "$tool"
    fi
}

# part WHAT EDIT: measures the project in the present folder
part() {
    # Boost.Build has a folder bin for each project, and so for each library.
    measured "$1, from nothing" 'rm -rf bin l*/bin .ninja_log .ninja_deps; [ ! -e folders ] || xargs mkdir -p < folders'
    measured "$1, nothing to do" true
    measured "$1, after one edit" "echo >> $2"
    remade "$2"
    if command -v valgrind >/dev/null; then
        printf '%s, nothing to do, millions of instructions:' "$1"
        counted b2 "$program" -j4
        if command -v ninja >/dev/null; then counted ninja ninja -j4; fi
        if command -v make >/dev/null; then counted make make -r -j4; fi
        if [ -n "$boost" ]; then counted boost "$boost" -j4; fi
        echo
    fi
}

for count in 2000 10000; do
    mkdir "$work/$count" && cd "$work/$count"
    python3 "$top/bench/layouts.py" tree "$count"
    part "$count steps in a tree" "s$((count / 20))"
done

if command -v g++ >/dev/null; then
    mkdir "$work/libraries" && cd "$work/libraries"
    python3 "$top/bench/layouts.py" libraries "$program"
    part "5 libraries of 20 C++ sources" "l2/include/l2/h5.h"
else
    echo "g++ is not there: the libraries are left out."
fi
command -v valgrind >/dev/null || echo "valgrind is not there: instructions are not counted."
