#!/bin/sh
# Proves and builds b2 with the libraries below it, leaves the program at ./b2, and builds the project in examples/hello with it, and,
# where g++ is there, the one in examples/cpp. The proofs are those of `rt ci`, over the crates that the program needs alone and without
# their wrong bodies: as many crates side by side as there are processors and memory, and none that this machine has proved before.
set -eu
cd "$(dirname "$0")"
top=$(pwd)
house=$(mktemp -d)
log=$house/log

# The lines of crates.txt of a crate and of those that it stands on.
lines_below() {
    awk -F: -v crate="$1" '
        function visit(name,    needed, count, i) {
            if (!(name in needs) || (name in seen)) return
            seen[name] = 1
            count = split(needs[name], needed, " ")
            for (i = 1; i <= count; i++) visit(needed[i])
            print name ":" needs[name]
        }
        { sub(/#.*/, ""); if (NF > 1) needs[$1] = $2 }
        END { visit(crate) }' crates.txt
}

# A copy of these crates, without what earlier runs left in them; it stands apart, since `rt ci` proves all of a repository.
mkdir "$house/crates"
cp HANDLES "$house"
lines_below b2_cmd >"$house/crates.txt"
for crate in $(cut -d: -f1 "$house/crates.txt"); do
    mkdir "$house/crates/$crate"
    for part in "crates/$crate"/*; do
        case $part in
        */out | */must-fail) ;;
        *) cp -R "$part" "$house/crates/$crate" ;;
        esac
    done
done

count=$(wc -l <"$house/crates.txt" | tr -d ' ')
echo "b2 is $count crates, and each is proved before it is built. By estimate that takes two hours of processor time from nothing, most"
echo "of an hour on four processors, up to 5 GB of memory for each crate that is being proved, and 10 GB of disk; what is proved is kept"
echo "on this machine, and later runs prove only what has changed. What fails is told in $log."
{ (cd "$house" && rt ci) 2>&1 || true; } | {
    number=0
    while read -r line; do
        printf '%s\n' "$line" >>"$log"
        case $line in
        'rt: '*' proved' | 'rt: '*' is kept: '*)
            number=$((number + 1))
            line=${line#rt: }
            echo "$number of $count: ${line%% *}"
            ;;
        esac
    done
}
if ! tail -n 1 "$log" | grep -q ' passed, 0 failed'; then
    echo "b2 is not proved; the end of $log:" >&2
    tail -n 20 "$log" >&2
    exit 1
fi
cp "$house/crates/b2_cmd/out/b2_cmd" b2
rm -rf "$house"
echo "The program is $top/b2. It builds examples/hello:"
rm -rf examples/hello/bin
(cd examples/hello && "$top/b2")
cat examples/hello/bin/greeting.txt
if command -v g++ >/dev/null; then
    echo "It builds examples/cpp, four commands at a time, and then finds nothing to do:"
    rm -rf examples/cpp/bin examples/cpp/dist
    (cd examples/cpp && "$top/b2" -j4 && "$top/b2" -j4 && bin/gcc/debug/report)
fi
