#!/bin/sh
# Runs the examples of README.md and of the pages in docs, and compares what is printed, the status and the files. It runs the program
# ./b2 that setup.sh leaves, or the one that B2 names, in copies of the projects in a temporary folder. mistakes-check.sh and, where g++
# is there, cpp-check.sh are parts of it.
set -u
top=$(cd "$(dirname "$0")/.." && pwd)
B2=${B2:-$top/b2}
work=$(mktemp -d)
trap 'rm -rf "$work"' EXIT
bad=0
count=0

# project NAME: a fresh copy of examples/NAME becomes the present folder
project() {
    name=$1
    cd "$work" && rm -rf "$name" && cp -r "$top/examples/$name" "$name" && cd "$name" && rm -rf bin stage dist
}

# runs STATUS WORD ..: the expected output is the standard input
runs() {
    status=$1; shift
    cat > "$work/expected"
    "$B2" "$@" > "$work/printed" 2>&1
    got=$?
    count=$((count + 1))
    if [ "$got" != "$status" ] || ! cmp -s "$work/expected" "$work/printed"; then
        bad=$((bad + 1))
        echo "--- $name: b2 $*: status $got, expected $status"
        diff "$work/expected" "$work/printed"
    fi
}

# holds FILE: the expected content is the standard input
holds() {
    cat > "$work/expected"
    count=$((count + 1))
    if ! cmp -s "$work/expected" "$1"; then
        bad=$((bad + 1))
        echo "--- $name: $1"
        diff "$work/expected" "$1"
    fi
}

# passes TEXT COMMAND ..: the command ends with status 0
passes() {
    text=$1; shift
    count=$((count + 1))
    if ! "$@" > "$work/output" 2>&1; then
        bad=$((bad + 1))
        echo "--- $name: $text"
        cat "$work/output"
    fi
}

# stamp FILE: its time of change in nanoseconds since 1970
stamp() {
    stat -c %.9Y "$1" | tr -d .
}

# shows PAGE: what the console blocks of a page show is what happens in the present folder, where each line that begins with `$ ` is a
# command, and those below it are what it prints
shows() {
    sed -n '/^```console$/,/^```$/{/^```/!p;}' "$top/$1" > "$work/shown"
    sed -n 's/^\$ //p' "$work/shown" > "$work/commands"
    while IFS= read -r command; do
        echo "\$ $command"
        PATH=$work/path:$PATH sh -c "$command" < /dev/null
    done < "$work/commands" > "$work/happened" 2>&1
    passes "$1" diff "$work/shown" "$work/happened"
}

mkdir "$work/path"
ln -s "$B2" "$work/path/b2"

# ---- docs/MANUAL.md

project hello
runs 0 <<'E'
join bin/greeting.txt
count bin/count.txt
updated 2, failed 0, skipped 0, missing 0
E
holds bin/greeting.txt <<'E'
Hello,
world!
E
holds bin/count.txt <<'E'
2
E
runs 0 <<'E'
updated 0, failed 0, skipped 0, missing 0
E
runs 0 --explain <<'E'
join bin/greeting.txt: fresh
count bin/count.txt: fresh
E
touch -r bin/greeting.txt -d '+1 second' world.txt
runs 0 --explain <<E
join bin/greeting.txt: bin/greeting.txt of $(stamp bin/greeting.txt) is older than world.txt of $(stamp world.txt)
count bin/count.txt: waits for bin/greeting.txt
E
for words in "" -a -aj2 --by=digest; do
    touch world.txt
    runs 0 $words <<'E'
join bin/greeting.txt
count bin/count.txt
updated 2, failed 0, skipped 0, missing 0
E
done
touch world.txt
runs 0 --by=digest <<'E'
updated 0, failed 0, skipped 0, missing 0
E
runs 0 -a <<'E'
join bin/greeting.txt
count bin/count.txt
updated 2, failed 0, skipped 0, missing 0
E
runs 0 --clean count.txt <<'E'
...removed bin/greeting.txt...
...removed bin/count.txt...
removed 2
E
passes "nothing but the log after --clean" [ "$(ls bin)" = b2.log ]
runs 0 --explain <<'E'
join bin/greeting.txt: output bin/greeting.txt missing
count bin/count.txt: waits for bin/greeting.txt
E
runs 0 --clean <<'E'
removed 0
E
runs 0 <<'E'
join bin/greeting.txt
count bin/count.txt
updated 2, failed 0, skipped 0, missing 0
E
holds bin/count.txt <<'E'
2
E
project hello
runs 0 greeting.txt <<'E'
join bin/greeting.txt
updated 1, failed 0, skipped 0, missing 0
E
runs 0 -n <<'E'
join bin/greeting.txt
cat hello.txt world.txt > bin/greeting.txt
count bin/count.txt
wc -w < bin/greeting.txt > bin/count.txt
E
runs 0 --show count.txt <<'E'
//count.txt [1]
//greeting.txt [1]
E
runs 0 --show <<'E'
//greeting.txt [1]
//count.txt [1]
E
runs 2 nothing <<'E'
b2: no target nothing
E
project hello
rm world.txt
runs 0 --explain <<'E'
join bin/greeting.txt: lacks world.txt
count bin/count.txt: waits for bin/greeting.txt
E
runs 1 <<'E'
...missing world.txt...
...skipped bin/greeting.txt...
...skipped bin/count.txt...
updated 0, failed 0, skipped 2, missing 1
E

# ---- the line of the log, with the time stamps of the files, and a second build, which starts nothing

name=one-command
cp -r "$top/crates/b2_cmd/data" "$work/$name" && cd "$work/$name"
runs 0 <<'E'
join bin/out.txt
updated 1, failed 0, skipped 0, missing 0
E
holds bin/out.txt < in.txt
printf '+1\tcat in.txt > bin/out.txt\t1\tbin/out.txt\t%s\t1\tin.txt\t%s\t.\n' "$(stamp bin/out.txt)" "$(stamp in.txt)" > "$work/line"
holds bin/b2.log < "$work/line"
runs 0 <<'E'
updated 0, failed 0, skipped 0, missing 0
E
holds bin/b2.log < "$work/line"

project words
for words in "" /shop; do
    runs 0 --show $words <<'E'
//flag [1] <colour>red <size>small
window//sign [1] <colour>red <size>small
E
done
for words in flag //flag /shop//flag; do
    runs 0 --show $words <<'E'
//flag [1] <colour>red <size>small
E
done
for words in window window//sign; do
    runs 0 --show $words <<'E'
window//sign [1] <colour>red <size>small
//flag [1] <colour>red <size>small
E
done
runs 0 --show green flag <<'E'
//flag [1] <colour>green <size>small
E
runs 0 --show size=large flag <<'E'
//flag [1] <colour>red <size>large
E
for words in "green,blue flag" "green blue flag"; do
    runs 0 --show $words <<'E'
//flag [1] <colour>green <size>small
//flag [1] <colour>blue <size>small
E
done
runs 0 --show green/size=large,small flag <<'E'
//flag [1] <colour>green <size>large
//flag [1] <colour>green <size>small
E
runs 0 -n green window//sign <<'E'
paint bin/green/flag
echo green cloth.txt > bin/green/flag
paint bin/green/window/sign
echo green bin/green/flag window/board.txt > bin/green/window/sign
E
runs 0 green window//sign <<'E'
paint bin/green/flag
paint bin/green/window/sign
updated 2, failed 0, skipped 0, missing 0
E
holds bin/green/window/sign <<'E'
green bin/green/flag window/board.txt
E

# ---- docs/LANGUAGE.md

project language
runs 0 <<'E'
first a-a x y
B
C
b c a+b+c nothing xa xb xc
src main src/main.o
updated 0, failed 0, skipped 0, missing 0
E

# ---- docs/PROJECTS.md

project demo
runs 0 -n release <<'E'
gcc.compile.c++ bin/gcc/release/link-static/lib/util.o
g++ -O3 -DNDEBUG -DDEMO  -c -o "bin/gcc/release/link-static/lib/util.o" "lib/util.cpp"
gcc.archive bin/gcc/release/link-static/lib/libutil.a
rm -f "bin/gcc/release/link-static/lib/libutil.a" && ar rcD "bin/gcc/release/link-static/lib/libutil.a" "bin/gcc/release/link-static/lib/util.o"
gcc.compile.c++ bin/gcc/release/main.o
g++ -O3 -fPIC -DNDEBUG -DDEMO -I"lib/inc" -c -o "bin/gcc/release/main.o" "main.cpp"
gcc.link bin/gcc/release/app
g++ -o "bin/gcc/release/app" "bin/gcc/release/main.o" "bin/gcc/release/link-static/lib/libutil.a"
E
runs 0 --show release <<'E'
//app [1] <toolset>gcc <variant>release <optimization>speed <debug-symbols>off <inlining>full <runtime-debugging>off <link>shared <runtime-link>shared <threading>single <warnings>on <define>NDEBUG <define>DEMO <include>lib/inc
lib//util [1] <toolset>gcc <variant>release <optimization>speed <debug-symbols>off <inlining>full <runtime-debugging>off <link>static <runtime-link>shared <threading>single <warnings>on <define>NDEBUG <define>DEMO
E

project alternatives
runs 0 --show <<'E'
//flag [1] <colour>red <size>small
E
runs 0 --show green <<'E'
//flag [2] <colour>green <size>small
E
runs 0 --show green size=large <<'E'
//flag [3] <colour>green <size>large
E
runs 0 -n green <<'E'
cut bin/green/flag
cp green.txt bin/green/flag
E
runs 0 green <<'E'
cut bin/green/flag
updated 1, failed 0, skipped 0, missing 0
E
holds bin/green/flag <<'E'
green
E
runs 0 -n size=large <<'E'
cut bin/size-large/flag
cp red.txt bin/size-large/flag
E

project conditions
runs 0 --show <<'E'
//flag [1] <colour>red <size>small
E
runs 0 --show green <<'E'
//flag [1] <colour>green <size>large <note>heavy
E
runs 0 -n green <<'E'
paint bin/green/size-large/flag
echo cloth.txt heavy > bin/green/size-large/flag
E
runs 0 -n size=large <<'E'
paint bin/size-large/flag
echo cloth.txt heavy > bin/size-large/flag
E
runs 0 -n <<'E'
paint bin/flag
echo cloth.txt  > bin/flag
E
runs 0 green <<'E'
paint bin/green/size-large/flag
updated 1, failed 0, skipped 0, missing 0
E
holds bin/green/size-large/flag <<'E'
cloth.txt heavy
E

project defaults
runs 0 --show <<'E'
//flag [1] <colour>green
//flag [1] <colour>blue
E
runs 0 --show red <<'E'
//flag [1] <colour>red
E
runs 0 <<'E'
paint bin/green/flag
paint bin/blue/flag
updated 2, failed 0, skipped 0, missing 0
E

project install
runs 0 <<'E'
join bin/gcc/debug/notes.txt
install.copy stage/notes/notes.txt
install.copy stage/notes/readme.txt
install.copy dist/paper/notes.txt
updated 4, failed 0, skipped 0, missing 0
E
holds dist/paper/notes.txt <<'E'
one
two
E
holds stage/notes/readme.txt <<'E'
read me
E
runs 0 -n paper <<'E'
join bin/gcc/debug/notes.txt
cat one.txt two.txt > bin/gcc/debug/notes.txt
install.copy dist/paper/notes.txt
cp "bin/gcc/debug/notes.txt" "dist/paper/notes.txt"
E

project book
runs 0 <<'E'
book.chapter bin/draft/one.chapter
book.chapter bin/draft/two.chapter
book.bind bin/draft/story
updated 3, failed 0, skipped 0, missing 0
E
holds bin/draft/story <<'E'
It began.
It ended.
E
runs 0 --show final <<'E'
//story [1] <edition>final <lines>numbered
E
runs 0 -n final <<'E'
book.chapter bin/final/one.chapter
cat -n one.txt > bin/final/one.chapter
book.chapter bin/final/two.chapter
cat -n two.txt > bin/final/two.chapter
book.bind bin/final/story
cat bin/final/one.chapter bin/final/two.chapter > bin/final/story
E
runs 0 -n lines=numbered <<'E'
book.chapter bin/draft/lines-numbered/one.chapter
cat -n one.txt > bin/draft/lines-numbered/one.chapter
book.chapter bin/draft/lines-numbered/two.chapter
cat -n two.txt > bin/draft/lines-numbered/two.chapter
book.bind bin/draft/lines-numbered/story
cat bin/draft/lines-numbered/one.chapter bin/draft/lines-numbered/two.chapter > bin/draft/lines-numbered/story
E
runs 0 final <<'E'
book.chapter bin/final/one.chapter
book.chapter bin/final/two.chapter
book.bind bin/final/story
updated 3, failed 0, skipped 0, missing 0
E
printf '     1\tIt began.\n     1\tIt ended.\n' > "$work/story"
holds bin/final/story < "$work/story"

. "$top/examples/mistakes-check.sh"

# ---- README.md and examples/cpp

if command -v g++ > /dev/null; then
    project draw
    shows README.md
    project from-b2
    shows docs/FROM-B2.md
    project tests
    shows docs/TESTING.md
    project jam
    shows docs/JAM.md
    . "$top/examples/cpp-check.sh"
else
    echo "There is no g++ here: no C++ project was built."
fi

echo "$count compared, $bad differ"
[ "$bad" = 0 ]
