#!/bin/sh
# Prints what planning costs: planning.sh [PART ..]
#
# Four projects are planned by `b2 -n`: (a) 2,000 calls of make in a tree, (b) 50 libraries of 40 C++ sources, (c) 1,000 Jamfiles of ten
# calls of make; and (d) loops of about 1,000,000 turns, which is what the project files of a load may take. For each of them come the
# instructions, and how often memory was asked for, by malloc and by realloc, for each step or turn. Beside (a) and (b) stands what ninja
# takes for a dry run of the same commands. (e) is 10,000 acts of a Jam file, planned by `b2 -f`, beside 10,000 calls of make in one project.
# An act is to take at most twice what a call of make takes.
#
# Then comes how that grows: projects and Jam files of N, 2N and 4N of one thing, a shape a line; up to 20,000 targets in a chain of DEPENDS,
# and 65,536 in one DEPENDS. PART is one of a b c d e growth, all where none is given.
#
# It runs the program ./b2 that setup.sh leaves, or the one that B2 names. It needs python3. Instructions and calls are counted by
# valgrind; where that is not there, (a) to (e) are left out, and growth is told in seconds. Where ninja is not there, it is left out. It
# takes some ten minutes with valgrind by estimate; nothing else should run while seconds are taken.
set -eu
. "$(dirname "$0")/program.sh"
program=$(realpath "$program")
command -v ninja >/dev/null || echo "ninja is not there: it is left out."
command -v valgrind >/dev/null || echo "valgrind is not there: instructions are not counted, and growth is told in seconds."
cd "$work"
python3 "$top/bench/planning.py" "$program" "$@"
