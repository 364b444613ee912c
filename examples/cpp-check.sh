# The part of check.sh on examples/cpp, with the real compiler: check.sh reads this file, and its functions are used here. Nothing
# depends on time: what is started is compared with what g++ says of the files, and what stands with the bytes of a clean build.

# gives COMMAND ..: the command ends with status 0, and its standard output is the standard input of this
gives() {
    cat > "$work/expected"
    "$@" > "$work/given" && ended=0 || ended=$?
    passes "$*: status $ended" [ "$ended" = 0 ]
    passes "$*: output" diff "$work/expected" "$work/given"
}

# reads WORD ..: for each step of the plan of these words its output, a colon, and the files that it reads: of a compilation those
# that g++ finds, of another step the words of its command
reads() {
    "$B2" -n "$@" > "$work/plan"
    while read -r _action out; do
        read -r command
        case $command in
        *' -c -o '*) sh -c "$(echo "$command" | sed 's/ -c -o / -MM -MT /')" < /dev/null | tr -d '\\\n'; echo ;;
        *) echo "$out: $(echo "$command" | tr -d '"')" ;;
        esac
    done < "$work/plan"
}

# due FILE: the outputs of the steps that are due when this file has changed, by what the steps read; inputs come before outputs
due() {
    awk -v changed="$1" '
        { out = $1; sub(/:$/, "", out); is_due = out == changed }
        { for (i = 2; i <= NF; i++) { sub(/^\.\//, "", $i); if ($i == changed || $i in made) is_due = 1 } }
        is_due { made[out]; print out }' "$work/reads"
}

# readers FILE: the outputs of the compilations that read this file
readers() {
    awk -v file="$1" '/\.o: / { for (i = 2; i <= NF; i++) if ($i == file) { sub(/:$/, "", $1); print $1 } }' "$work/reads"
}

# starts WORD ..: a build with these words ends with status 0, and starts the steps whose outputs are the lines of the standard input
starts() {
    sort > "$work/expected"
    "$B2" "$@" > "$work/printed" 2> "$work/errors" && ended=0 || ended=$?
    passes "b2 $*: status $ended" [ "$ended" = 0 ]
    sed '$d' "$work/printed" | cut -d' ' -f2- | sort > "$work/started"
    passes "b2 $*: steps that start" diff "$work/expected" "$work/started"
    tail -n 1 "$work/printed" > "$work/last"
    echo "updated $(wc -l < "$work/expected" | tr -d ' '), failed 0, skipped 0, missing 0" > "$work/expected"
    passes "b2 $*: last line" diff "$work/expected" "$work/last"
}

# nothing_starts WORD ..: a build with these words starts nothing
nothing_starts() {
    starts "$@" < /dev/null
}

# clean FOLDER WORD ..: a build of the present sources from nothing, in another folder
clean() {
    folder=$work/$1; shift
    rm -rf "$folder" && mkdir "$folder"
    for entry in *; do
        case $entry in
        bin | stage | dist) ;;
        *) cp -r "$entry" "$folder" ;;
        esac
    done
    (cd "$folder" && "$B2" "$@" > /dev/null 2>&1)
    passes "b2 $* in an empty folder" [ $? = 0 ]
}

# same_as FOLDER: all that was built has the bytes of that clean build
same_as() {
    passes "bytes of the clean build" diff -r -x b2.log bin "$work/$1/bin"
}

# mends FOLDER WORD ..: a build ends with status 0 and leaves the bytes of that clean build, and the next one starts nothing
mends() {
    folder=$1; shift
    "$B2" "$@" > "$work/printed" 2>&1
    passes "b2 $* after this" [ $? = 0 ]
    same_as "$folder"
    nothing_starts "$@"
}

# ---- it is built, and what is built runs

project demo
"$B2" release > /dev/null 2>&1
passes "b2 release" [ $? = 0 ]
echo hello > "$work/greeting"
gives bin/gcc/release/app < "$work/greeting"

project cpp
runs 0 <<'E1'
gcc.compile.c++ bin/gcc/debug/list_primes.o
gcc.link bin/gcc/debug/list_primes
write_header bin/gcc/debug/primes.h
gcc.compile.c++ bin/gcc/debug/link-static/text/join.o
gcc.compile.c++ bin/gcc/debug/link-static/text/digits.o
gcc.archive bin/gcc/debug/link-static/text/libtext.a
gcc.compile.c++ bin/gcc/debug/stats/summary.o
gcc.link.dll bin/gcc/debug/stats/libstats.so
gcc.compile.c++ bin/gcc/debug/report.o
gcc.link bin/gcc/debug/report
updated 10, failed 0, skipped 0, missing 0
E1
cat > "$work/report" <<'E1'
the first primes: 2, 3, 5, 7, 11, 13, 17, 19
mean 9, largest 19
E1
gives bin/gcc/debug/report < "$work/report"
runs 0 <<'E1'
updated 0, failed 0, skipped 0, missing 0
E1
"$B2" -n -j4 release > "$work/plan"
sed -n 'p;n' "$work/plan" | cut -d' ' -f2- | starts -j4 release
nothing_starts -j4 release
gives bin/gcc/release/report < "$work/report"
"$B2" -j4 link=static > /dev/null 2>&1
passes "b2 -j4 link=static" [ $? = 0 ]
gives bin/gcc/debug/link-static/report < "$work/report"
"$B2" -j4 dist > /dev/null 2>&1
passes "b2 -j4 dist" [ $? = 0 ]
nothing_starts dist
gives env -C / "$work/cpp/dist/report" < "$work/report"
nothing_starts debug release

# ---- a header is changed, and what reads it is built anew

echo '// changed' >> text/digits.h
runs 0 <<'E1'
gcc.compile.c++ bin/gcc/debug/link-static/text/join.o
gcc.compile.c++ bin/gcc/debug/link-static/text/digits.o
gcc.archive bin/gcc/debug/link-static/text/libtext.a
gcc.link bin/gcc/debug/report
updated 4, failed 0, skipped 0, missing 0
E1
reads > "$work/reads"
for file in $(find . -name '*.h' -o -name '*.cpp' | sed 's,^\./,,' | grep -v '^bin/'; echo bin/gcc/debug/primes.h); do
    echo '// changed' >> "$file"
    due "$file" > "$work/due"
    passes "$file is read" [ -s "$work/due" ]
    starts -j4 < "$work/due"
    nothing_starts
done
touch text/join.cpp
due text/join.cpp | starts

rm stats/mean.h
"$B2" > "$work/printed" 2> /dev/null
passes "status 1 without a header" [ $? = 1 ]
cat > "$work/expected" <<'E1'
gcc.compile.c++ bin/gcc/debug/stats/summary.o
...failed gcc.compile.c++ bin/gcc/debug/stats/summary.o...
...skipped bin/gcc/debug/stats/libstats.so...
...skipped bin/gcc/debug/report...
updated 0, failed 1, skipped 2, missing 0
E1
passes "the report without a header" diff "$work/expected" "$work/printed"
passes "no object of a failed step" [ ! -e bin/gcc/debug/stats/summary.o ]
cp "$top/examples/cpp/stats/mean.h" stats
due stats/mean.h | starts

# ---- judging by digests: a file with the same bytes counts as the same

project cpp
"$B2" -j4 release > /dev/null 2>&1
nothing_starts --by=digest release
touch text/join.cpp
nothing_starts --by=digest release
reads release > "$work/reads"
due text/join.cpp | starts release
nothing_starts --by=digest release
for file in $(find . -name '*.h' | sed 's,^\./,,' | grep -v '^bin/'); do
    echo '// changed' >> "$file"
    readers "$file" | starts -j4 --by=digest release
    nothing_starts --by=digest release
done

# ---- after damage of all kinds the next build leaves the bytes of a clean build

project cpp
clean whole release
"$B2" -j4 release > /dev/null 2>&1
same_as whole
reads release > "$work/reads"

echo edited >> bin/gcc/release/report.o
due bin/gcc/release/report.o | starts release
same_as whole

rm bin/gcc/release/stats/libstats.so
mends whole -j4 release

rm title.h
clean without release
due report.cpp | starts -j4 release
same_as without
cp "$top/examples/cpp/title.h" .
due title.h | starts -j4 release
same_as whole

mv stats/mean.h "$work/mean.h"
"$B2" -q release > "$work/printed" 2> /dev/null
passes "status 1 without a header" [ $? = 1 ]
mv "$work/mean.h" stats
mends whole -j4 release

size=$(wc -c < bin/b2.log)
head -c $((size - 3)) bin/b2.log > "$work/log" && cp "$work/log" bin/b2.log
mends whole -j4 release

rm bin/b2.log
mends whole -j4 release

# A g++ that ends b2: the call with the number STOP_AT leaves half of its output, and kills the process whose number the file pid has.
mkdir "$work/tools"
cat > "$work/tools/g++" <<'E1'
#!/bin/sh
number=1
until mkdir "$STOP/calls/$number" 2> /dev/null; do number=$((number + 1)); done
"$COMPILER" "$@" || exit 1
[ "$number" = "$STOP_AT" ] || exit 0
while [ "$1" != -o ]; do shift; done
head -c $(($(wc -c < "$2") / 2)) "$2" > "$STOP/half"
cat "$STOP/half" > "$2"
kill -9 "$(cat "$STOP/pid")"
E1
chmod +x "$work/tools/g++"
COMPILER=$(command -v g++)
for number in 1 2 3 4 5 6 7 8; do
    rm -rf bin "$work/stop" && mkdir -p "$work/stop/calls"
    # What b2 started holds the pipe open, so that this goes on when all of it has ended.
    {
        STOP=$work/stop STOP_AT=$number COMPILER=$COMPILER PATH=$work/tools:$PATH \
            sh -c 'echo $$ > "$STOP/pid"; exec "$@"' stop "$B2" -j4 release 2>&1
    } 2> /dev/null | cat > "$work/printed"
    passes "b2 was stopped at compilation $number" sh -c '! grep -q "^updated " "$1"' stop "$work/printed"
    mends whole -j4 release
done

# ---- each testing rule with its other end, with the real compiler

project tests
"$B2" > "$work/printed" 2> /dev/null
passes "all tests" [ "$(grep -c '^passed //' "$work/printed")" = 4 ]
sed -i 's/ = delete/ = default/' include/stack.h
runs 1 <<'E1'
gcc.compile.c++ bin/gcc/debug/link-static/stack.o
gcc.archive bin/gcc/debug/link-static/libstack.a
gcc.compile.c++ bin/gcc/debug/order_test.o
gcc.link bin/gcc/debug/order_test.run
testing.run bin/gcc/debug/order_test.test
gcc.compile.c++ bin/gcc/debug/empty_test.o
gcc.link bin/gcc/debug/empty_test.run
testing.run-fail bin/gcc/debug/empty_test.test
gcc.compile.c++ bin/gcc/debug/header_test.o
testing.pass bin/gcc/debug/header_test.test
testing.compile-fail bin/gcc/debug/copy_test.test
...failed testing.compile-fail bin/gcc/debug/copy_test.test...
updated 10, failed 1, skipped 0, missing 0
passed //order_test.test
passed //empty_test.test
passed //header_test.test
failed //copy_test.test
E1
passes "no marker of a test that failed" [ ! -e bin/gcc/debug/copy_test.test ]
runs 1 copy_test.test <<'E1'
testing.compile-fail bin/gcc/debug/copy_test.test
...failed testing.compile-fail bin/gcc/debug/copy_test.test...
updated 0, failed 1, skipped 0, missing 0
failed //copy_test.test
E1
cp "$top/examples/tests/include/stack.h" include
"$B2" copy_test.test > "$work/printed" 2> /dev/null
passes "a test that passes again" grep -qx 'passed //copy_test.test' "$work/printed"
# A source that does not compile: its test has failed, and the marker of before stands.
echo 'int broken' >> header_test.cpp
"$B2" header_test.test > "$work/happened" 2> /dev/null
passes "status 1 of a source that does not compile" [ $? = 1 ]
cat > "$work/expected" <<'E1'
gcc.compile.c++ bin/gcc/debug/header_test.o
...failed gcc.compile.c++ bin/gcc/debug/header_test.o...
...skipped bin/gcc/debug/header_test.test...
updated 0, failed 1, skipped 1, missing 0
failed //header_test.test
E1
passes "the verdict on a source that does not compile" diff "$work/expected" "$work/happened"
passes "its marker of before" [ -e bin/gcc/debug/header_test.test ]
cp "$top/examples/tests/header_test.cpp" .
# A program that ends well is no longer one that is to end badly, and the other way round.
cp empty_test.cpp order_test.cpp
sed -i '/pop/d' empty_test.cpp
"$B2" -j4 > "$work/printed" 2> /dev/null
passes "status 1 of tests that fail" [ $? = 1 ]
tail -n 5 "$work/printed" > "$work/happened"
cat > "$work/expected" <<'E1'
updated 8, failed 2, skipped 0, missing 0
failed //order_test.test
failed //empty_test.test
passed //header_test.test
passed //copy_test.test
E1
passes "the verdicts" diff "$work/expected" "$work/happened"

# ---- a program of a shared library, which is started in another folder (docs/MANUAL.md, 'Shared libraries')

rm -rf "$work/shared" && mkdir "$work/shared" && cd "$work/shared"
cat > u.cpp <<'E1'
int u() { return 7; }
E1
cat > hello.cpp <<'E1'
#include <cstdio>
int u();
int main() { std::printf("%d\n", u()); }
E1

printf '%s\n' 'using gcc ;' 'lib u : u.cpp ;' 'exe hello : hello.cpp u ;' > Jamroot
passes "build of a shared library" "$B2"
passes "start in the folder of Jamroot" [ "$(bin/gcc/debug/hello)" = 7 ]
passes "no start elsewhere" sh -c '! (cd / && LD_LIBRARY_PATH=$1 "$1/hello") 2> /dev/null' start "$work/shared/bin/gcc/debug"
cat > Jamroot <<'E1'
using gcc ;
lib u : u.cpp : <linkflags>-Wl,-soname,libu.so ;
exe hello : hello.cpp u : <linkflags>'-Wl,-rpath,$ORIGIN' ;
E1
passes "build with a soname and a search path" "$B2"
passes "start elsewhere" [ "$(cd / && "$work/shared/bin/gcc/debug/hello")" = 7 ]
