# The part of check.sh on mistakes: check.sh reads this file, and its functions are used here. Words that are no command, project files
# and requests that cannot be, and what a build does where the system or a command fails. Nothing depends on time or luck.

# empty NAME: an empty folder of this name becomes the present one
empty() {
    name=$1
    cd "$work" && rm -rf "$name" && mkdir "$name" && cd "$name"
}

# dated FILE ..: each gets a time of change that no file had before, so that its time stamp is another one
moment=1000000000
dated() {
    for file in "$@"; do
        moment=$((moment + 1))
        touch -d "@$moment" "$file"
    done
}

# leaves NAMES: these are the names in the present folder, with a blank between two
leaves() {
    passes "what is left: $(ls -x)" [ "$(echo *)" = "$1" ]
}

# refuses TEXT JAMROOT WORD ..: with this Jamroot and these words a build, both looks, `--explain` and `--clean` end with status 2 and
# the line `b2: TEXT`, and no file is made
refuses() {
    refusal=$1 jamroot=$2; shift 2
    empty mistake
    printf '%s\n' "$jamroot" > Jamroot
    echo "b2: $refusal" > "$work/refusal"
    for option in "" -n --show --explain --clean; do
        runs 2 $option "$@" < "$work/refusal"
    done
    leaves Jamroot
}

# ---- words that are no command

empty words
echo 'ECHO loaded ;' > Jamroot
usage='b2: usage: b2 [-jN] [-a] [-q] [--by=digest] [-n, --show, --explain or --clean] [word ..], or b2 -f FILE [target ..], or b2 --drill=N'
for words in -h --help --version -x -d2 -sX=1 -an -a=x '-a -a' -aa '-q -a -q' -j -j= -j0 -j65 -j04 -jx '-j -a' '-j --' '-j1 -j2' \
    --by --by= --by=time --by=digest=1 '--by=digest --by=digest' '--by=digest --by digest' '-n --show' '-n -n' '-n -j0' '--show -z' \
    '-n --explain' '--explain --show' '--explain --clean' '--clean -n' '--explain --explain' '--clean --clean' --explain=x --clean= \
    '--explain --by=digest' '--by digest --explain' '--explain -a -a' '--clean -z' \
    -f -fF '-f F -n' '-f F --show' '-f F --explain' '-f F --clean' '-f F --drill=4' '-f F -j0' '-f F -a -a' '-f F --by=time' '-a -f F' \
    --drill= --drill=0 --drill=04 --drill=2001 --drill=x '--drill=4 draw'; do
    runs 3 $words <<E1
$usage
E1
done
runs 3 -f "" <<E1
$usage
E1
runs 3 "$(printf '\377')" < /dev/null
leaves Jamroot

# ---- project files and requests that cannot be

empty none
echo 'b2: no Jamroot' > "$work/refusal"
for option in "" -n --show --explain --clean; do
    runs 2 $option < "$work/refusal"
done
leaves '*'
empty folder
mkdir Jamroot
for option in "" -n --show --explain --clean; do
    runs 2 $option < "$work/refusal"
done
refuses 'Jamroot: byte 1 is not text' "$(printf 'x\377 ;')"
refuses 'Jamroot has 1048577 bytes' "$(head -c 1048576 /dev/zero | tr '\0' '#')"
refuses 'Jamroot:1: open quote' 'ECHO "draw ;'
refuses 'Jamroot:1: open actions' 'actions join { cat'
refuses 'Jamroot:1: syntax error at }' 'if a { ECHO b ; } }'
refuses 'Jamroot:1: syntax error at end of file' 'ECHO hello;'
refuses 'Jamroot:1: syntax error at join' 'actions piecemeal join { cat }'
refuses 'Jamroot:1: unknown rule glob-tree' 'ECHO [ glob-tree *.cpp ] ;'
refuses 'Jamroot:2: unknown rule os.name' 'import os ;
ECHO [ os.name ] ;'
refuses 'Jamroot:2: wrong arguments for twice' 'rule twice ( word ) { return $(word) $(word) ; }
twice a b ;'
refuses 'Jamroot:2: more than 256 levels' 'rule again ( )
{ again ; }
again ;'
refuses 'Jamroot:1: more than 1000000 turns' 'while a { }'
refuses 'Jamroot:1: bad index y' 'ECHO $(X[y]) ;'
refuses 'Jamroot:1: bad modifier Q' 'ECHO $(X:Q) ;'
refuses 'Jamroot:1: expansion too deep' 'ECHO $($($($($($($($($($($($($($($($($(X))))))))))))))))) ;'
refuses 'Jamroot:1: expansion of 16777224 bytes' 'D = 0 1 2 3 4 5 6 7 8 9 ; ECHO $(D)$(D)$(D)$(D)$(D)$(D)$(D) ;'
refuses 'Jamroot:1: not today' 'EXIT not today ;'
refuses 'Jamroot:1: no file other.jam' 'include other.jam ;'
refuses 'Jamroot:1: bad pattern (' 'ECHO [ MATCH "(" : a ] ;'
refuses 'Jamroot:1: no rule f in module m' 'IMPORT m : f : n : g ;'
refuses 'Jamroot:1: ALWAYS on a foreign target draw' 'ALWAYS draw ;'
refuses 'Jamroot:1: bad using' 'using gcc : 12 ;'
refuses 'Jamroot:1: bad exe' 'exe draw main.cpp ;'
refuses 'Jamroot:1: bad run' 'run draw.cpp : circle ;'
refuses 'Jamroot:1: bad compile-fail' 'compile-fail draw.c ;'
refuses 'Jamroot:2: unknown rule unit-test' 'import testing ;
unit-test draw : draw.cpp ;'
refuses 'gcc:6: unknown rule gcc.compile.c++' 'compile-fail draw.cpp ;'
refuses 'Jamroot:2: f is there twice' 'feature.feature f : a ;
feature.feature f : b ;'
refuses 'Jamroot:2: unknown cxxstd' 'using gcc ;
exe draw : main.cpp : <cxxstd>17 ;'
refuses 'Jamroot:2: unknown name' 'using gcc ;
lib z : : <name>z ;'
refuses 'Jamroot:2: unknown <toolset>msvc:<define>X' 'using gcc ;
exe draw : main.cpp : <toolset>msvc:<define>X ;'
refuses 'Jamroot:1: bad value odd' 'feature.feature f : a : odd ;'
refuses 'Jamroot:3: conflict in x' 'feature.feature o : x y ;
feature.feature f : a : composite ;
feature.compose <f>a : <o>x <o>y ;'
refuses 'unknown word speed=high' 'using gcc ;' speed=high
refuses 'unknown value toolset=clang' 'using gcc ;' toolset=clang
refuses 'conflict debug/release' 'using gcc ;' debug/release
refuses 'no target clean' 'using gcc ;' clean
refuses 'no target //shapes' 'using gcc ;
exe draw : main.cpp : <library>shapes ;'
refuses 'target cycle: //a -> //b -> //a' 'alias a : b ;
alias b : a ;'
refuses 'usage conflict in //c: <link>static <link>shared' 'using gcc ;
alias a : : : : <link>static ;
alias b : : : : <link>shared ;
alias c : a b ;'
refuses 'no alternative of //t for <colour>red' 'feature.feature colour : red green blue ;
alias t : x : <colour>green ;
alias t : y : <colour>blue ;'
refuses 'alternatives 1 and 2 of //t for <colour>red' 'feature.feature colour : red green ;
alias t : x : <colour>red ;
alias t : y : <colour>red ;'
refuses 'alternatives 1 and 2 of //draw.test for <toolset>gcc <variant>debug <optimization>off <debug-symbols>on <inlining>off '\
'<runtime-debugging>on <link>shared <runtime-link>shared <threading>single <warnings>on' 'using gcc ;
compile draw.cpp ;
run draw.cpp ;'
refuses 'unstable requirements of //draw' 'using gcc ;
exe draw : main.cpp : <link>shared:<threading>multi <threading>multi:<link>static ;'
refuses 'no chain from FILE to OBJ' 'exe draw : main.cpp ;'
refuses 'two chains from STONE to OBJ: one; two' 'using gcc ;
type.register STONE : st ;
generators.register-standard one : STONE : OBJ ;
generators.register-standard two : STONE : OBJ ;
obj a : a.st ;'
refuses 'path clash: bin/gcc/debug/main.o' 'using gcc ;
exe one : main.cpp ;
exe two : main.cpp : <define>X ;'
refuses 'location outside: /usr/local/bin/draw' 'using gcc ;
exe draw : main.cpp ;
install copies : draw : <location>/usr/local/bin ;'
refuses 'no Jamfile in lib' 'build-project lib ;'

# ---- Jam files and targets that cannot be

# file_refuses TEXT FILE TARGET ..: with this Jam file F and these targets a build ends with status 2 and the line `b2: TEXT`, and no
# file is made
file_refuses() {
    refusal=$1 file=$2; shift 2
    empty jam-mistake
    printf '%s\n' "$file" > F
    echo "b2: $refusal" > "$work/refusal"
    runs 2 -f F "$@" < "$work/refusal"
    leaves F
}

empty no-file
echo 'b2: no file F' > "$work/refusal"
runs 2 -f F < "$work/refusal"
runs 2 -f ./F all < "$work/refusal"
leaves '*'
mkdir F
runs 2 -f F < "$work/refusal"
file_refuses 'F has 1048577 bytes' "$(head -c 1048576 /dev/zero | tr '\0' '#')"
file_refuses 'F: byte 1 is not text' "$(printf 'x\377 ;')"
file_refuses 'F:1: open quote' 'ECHO "draw ;'
file_refuses 'F:1: open actions' 'actions join { cat'
file_refuses 'F:1: syntax error at end of file' 'ECHO hello;'
file_refuses 'F:1: syntax error at join' 'actions updated join { cat }'
file_refuses 'F:1: unknown rule Main' 'Main draw : draw.c ;'
file_refuses 'F:1: unknown rule exe' 'exe draw : draw.cpp ;'
file_refuses 'F:1: unknown rule LEAVES' 'LEAVES draw ;'
file_refuses 'F:1: wrong arguments for DEPENDS' 'DEPENDS : draw ;'
file_refuses 'F:1: no file rules.jam' 'include rules.jam ;'
file_refuses 'F:1: more than 1000000 turns' 'while a { }'
file_refuses 'F:2: more than 256 levels' 'rule again ( )
{ again ; }
again ;'
file_refuses 'F:1: no compiler' 'EXIT no compiler ;'
file_refuses 'no target clean' 'DEPENDS all : draw ;' clean
file_refuses '65537 steps' 'actions p { x }
D = 0 1 2 3 4 5 6 7 8 9 ;
for local a in $(D) { for local b in $(D) { for local c in $(D) { for local d in $(D) { for local e in $(D) { p $(a)$(b)$(c)$(d)$(e) ; } } } } }'
file_refuses 'notfile and file in one action: c' 'actions p { x }
p a b c ;
NOTFILE c ;'
file_refuses 'notfile and file in one action: all' 'actions p { x }
p all draw ;'
file_refuses 'F:3: bad index a' 'actions p { $(X[a]) }

p draw ;'
file_refuses 'location outside: lib/draw' 'actions p { x }
LOCATE = lib ;
p draw ;'
file_refuses 'location outside: draw' 'actions p { x }
p ../draw ;'
file_refuses 'path clash: bin/draw' 'actions p { x }
p draw ;
p <g>draw ;'
file_refuses 'path clash: bin/draw/part' 'actions p { x }
p draw ;
p draw/part ;'
file_refuses 'path clash: bin/b2.log' 'actions p { x }
p b2.log ;'

empty jam-cycle
printf '%s\n' 'actions copy { cp -T $(>) $(<) 2> /dev/null }' 'copy a : b ;' 'copy b : a ;' 'copy c : x ;' 'DEPENDS all : a c ;' > F
runs 1 -f F c <<'E1'
...missing x...
...skipped bin/c...
updated 0, failed 0, skipped 1, missing 1
E1
echo text > x
runs 2 -f F <<'E1'
copy bin/c
b2: step cycle: bin/a -> bin/b -> bin/a
E1
holds bin/c < x

# ---- a command that fails

# copies: the rule of actions that copy the first source
copies='actions copy { cp -T $(>) $(<) 2> /dev/null }'

empty killed
printf '%s\n' 'actions die { echo half > $(<) ; kill -9 $$ }' "$copies" \
    'make a : : @die ;' 'make b : a : @copy ;' 'make c : x : @copy ;' > Jamroot
echo whole > x
runs 1 <<'E1'
die bin/a
...failed die bin/a...
copy bin/c
...skipped bin/b...
updated 1, failed 1, skipped 1, missing 0
E1
passes "nothing of a command that was killed" [ ! -e bin/a ]
sed -i 's/half/whole/; s/; kill -9 \$\$//' Jamroot
runs 0 <<'E1'
die bin/a
copy bin/b
updated 2, failed 0, skipped 0, missing 0
E1
holds bin/b < x

empty unknown
printf '%s\n' 'actions none { no-such-command $(<) 2> /dev/null }' 'make a : : @none ;' > Jamroot
runs 1 <<'E1'
none bin/a
...failed none bin/a...
updated 0, failed 1, skipped 0, missing 0
E1

empty idle
printf '%s\n' 'actions idle { true }' 'make a : : @idle ;' > Jamroot
runs 1 <<'E1'
idle bin/a
...failed idle bin/a...
updated 0, failed 1, skipped 0, missing 0
E1

# ---- steps that need one another

empty cycle
printf '%s\n' "$copies" 'make a : bin/b : @copy ;' 'make b : bin/a : @copy ;' 'make c : x : @copy ;' > Jamroot
echo text > x
runs 2 <<'E1'
copy bin/c
b2: step cycle: bin/a -> bin/b -> bin/a
E1
holds bin/c < x
runs 2 <<'E1'
b2: step cycle: bin/a -> bin/b -> bin/a
E1

# ---- a command that writes much

empty much
printf '%s\n' 'actions much { yes o | head -c 3000000 ; yes e | head -c 3000000 >&2 ; echo done > $(<) }' \
    'make a : : @much ;' 'make b : : @much ;' > Jamroot
"$B2" -j2 > "$work/printed" 2> "$work/errors"
passes "status of commands that write much" [ $? = 0 ]
passes "all that commands write" [ "$(tr -cd o < "$work/printed" | wc -c | tr -d ' ')" = 3000000 ]
passes "all that commands write as errors" [ "$(wc -c < "$work/errors" | tr -d ' ')" = 6000000 ]
runs 0 <<'E1'
updated 0, failed 0, skipped 0, missing 0
E1

# ---- a command that writes a gigabyte

empty gigabyte
printf '%s\n' 'actions say { head -c 1073741824 /dev/zero ; echo done > $(<) }' 'actions grow { truncate -s 1073741824 $(<) }' \
    'make a : : @say ;' 'make b : : @grow ;' > Jamroot
passes "all of a gigabyte that a command writes" [ "$("$B2" a | tr -cd '\0' | wc -c | tr -d ' ')" = 1073741824 ]
runs 0 a <<'E1'
updated 0, failed 0, skipped 0, missing 0
E1
runs 0 b <<'E1'
grow bin/b
updated 1, failed 0, skipped 0, missing 0
E1
# Such a file has a time stamp, and no digest.
runs 2 --by=digest b <<'E1'
b2: bin/b has 1073741824 bytes
E1
runs 0 b <<'E1'
updated 0, failed 0, skipped 0, missing 0
E1
rm bin/b

# ---- files at the limits of their sizes, and one byte past them

# a_size NAME FILE: a project of one step, which tells how many bytes a source has
a_size() {
    empty "$1"
    printf '%s\n' 'actions size { wc -c < $(>) > $(<) }' "make size : $2 : @size ;" > Jamroot
}

# is_sized BYTES WORD ..: with a source of so many bytes a build ends with status 0, and the next one starts nothing
is_sized() {
    bytes=$1; shift
    truncate -s "$bytes" "$source"
    dated "$source"
    runs 0 "$@" <<'E1'
size bin/size
updated 1, failed 0, skipped 0, missing 0
E1
    passes "size of $source" [ "$(tr -d ' ' < bin/size)" = "$bytes" ]
    runs 0 "$@" <<'E1'
updated 0, failed 0, skipped 0, missing 0
E1
}

# is_too_big BYTES WORD ..: with a source of so many bytes a build is refused, and starts nothing
is_too_big() {
    bytes=$1; shift
    truncate -s "$bytes" "$source"
    dated "$source"
    runs 2 "$@" <<E1
b2: $source has $bytes bytes
E1
}

source=x.h
a_size to-scan $source
is_too_big 16777217
leaves 'Jamroot x.h'
is_sized 16777216
is_too_big 16777217

source=x
a_size to-digest $source
is_too_big 268435457 --by=digest
leaves 'Jamroot x'
is_sized 268435457
is_sized 268435456 --by=digest
is_too_big 268435457 --by=digest
rm x

# ---- the system fails

# a_chain: a project of two steps, of which the second reads what the first one makes
a_chain() {
    empty "$1"
    printf '%s\n' "$copies" 'make a : x : @copy ;' 'make sub/b : a : @copy ;' > Jamroot
    echo text > x
}

# faults [-jN] LINE ..: a build ends with status 4; it writes these lines, and then `b2: host fault`
faults() {
    case ${1-} in
    -*) option=$1; shift ;;
    *) option= ;;
    esac
    printf '%s\n' "$@" 'b2: host fault' > "$work/lines"
    runs 4 $option < "$work/lines"
}

# recovers LINE ..: a build ends with status 0 and starts the steps of these lines; what it makes is right, and the next one starts nothing
recovers() {
    printf '%s\n' "$@" "updated $#, failed 0, skipped 0, missing 0" > "$work/lines"
    runs 0 < "$work/lines"
    holds bin/sub/b < x
    runs 0 <<'E1'
updated 0, failed 0, skipped 0, missing 0
E1
}

# A log at its limit counts, though bytes that are no line follow its lines; it is put back. A larger one counts as empty, and
# cleaning leaves it empty.
a_chain large-log
recovers 'copy bin/a' 'copy bin/sub/b'
cp bin/b2.log "$work/log"
truncate -s 268435456 bin/b2.log
runs 0 <<'E1'
updated 0, failed 0, skipped 0, missing 0
E1
holds bin/b2.log < "$work/log"
truncate -s 268435457 bin/b2.log
recovers 'copy bin/a' 'copy bin/sub/b'
passes "lines of a log that is written anew" [ "$(wc -l < bin/b2.log | tr -d ' ')" = 2 ]
truncate -s 268435457 bin/b2.log
runs 0 --explain <<'E1'
copy bin/a: no record
copy bin/sub/b: waits for bin/a
E1
runs 0 --clean <<'E1'
...removed bin/a...
...removed bin/sub/b...
removed 2
E1
holds bin/b2.log < /dev/null
recovers 'copy bin/a' 'copy bin/sub/b'

# What else runs when a call fails is waited for: here the log is in the way, and whichever command ends last leaves its output whole.
empty fault-beside
printf '%s\n' "$copies" 'actions wait { sleep 1 ; cp -T $(>) $(<) }' 'make a : x : @copy ;' 'make b : x : @wait ;' \
    'make c : x : @copy ;' > Jamroot
echo text > x
mkdir -p bin/b2.log
faults -j2 'copy bin/a' 'wait bin/b'
for out in a b; do
    holds bin/$out < x
done
passes "nothing starts after a fault" [ ! -e bin/c ]

a_chain bin-is-a-file
echo > bin
faults
rm bin
recovers 'copy bin/a' 'copy bin/sub/b'

a_chain log-is-a-folder
mkdir -p bin/b2.log
faults 'copy bin/a'
rmdir bin/b2.log
recovers 'copy bin/a' 'copy bin/sub/b'

a_chain folder-is-a-file
mkdir bin
echo > bin/sub
faults 'copy bin/a'
faults
rm bin/sub
recovers 'copy bin/sub/b'

a_chain output-is-a-folder
mkdir -p bin/a
runs 1 <<'E1'
copy bin/a
...failed copy bin/a...
...skipped bin/sub/b...
updated 0, failed 1, skipped 1, missing 0
E1
rmdir bin/a
recovers 'copy bin/a' 'copy bin/sub/b'

a_chain source-is-a-folder
rm x
mkdir x
runs 1 <<'E1'
...missing x...
...skipped bin/a...
...skipped bin/sub/b...
updated 0, failed 0, skipped 2, missing 1
E1
rmdir x
echo text > x
recovers 'copy bin/a' 'copy bin/sub/b'

# ---- files that may not be read or written

# The superuser may all, so that b2 runs as another user there.
cp "$B2" "$work/program"
chmod 755 "$work" "$work/program"
if [ "$(id -u)" = 0 ]; then
    echo 'exec setpriv --reuid=65534 --regid=65534 --clear-groups "${0%/*}/program" "$@"' > "$work/as-user"
else
    echo 'exec "${0%/*}/program" "$@"' > "$work/as-user"
fi
sed -i '1i #!/bin/sh' "$work/as-user"
chmod 755 "$work/as-user"

# a_users_chain NAME: a_chain, in a folder of that user
a_users_chain() {
    a_chain "$1"
    [ "$(id -u)" != 0 ] || chown -R 65534:65534 .
}

owners_b2=$B2
B2=$work/as-user

a_users_chain read-only-bin
mkdir bin
[ "$(id -u)" != 0 ] || chown 65534:65534 bin
chmod 555 bin
runs 1 <<'E1'
copy bin/a
...failed copy bin/a...
...skipped bin/sub/b...
updated 0, failed 1, skipped 1, missing 0
E1
passes "nothing in a folder that is not to be written" [ -z "$(ls bin)" ]
chmod 755 bin
recovers 'copy bin/a' 'copy bin/sub/b'
# What stands there stays: it can be neither written nor removed.
echo other > x
dated x
chmod 444 bin/a
chmod 555 bin
faults 'copy bin/a'
runs 4 --clean <<'E1'
b2: host fault
E1
passes "an output that may not be removed" grep -q text bin/a
chmod 755 bin
chmod 644 bin/a
recovers 'copy bin/a' 'copy bin/sub/b'

# A log that may not be read is a fault; one that may not be written is one where something is to be written.
chmod 0 bin/b2.log
faults
for option in --explain --clean; do
    runs 4 $option <<'E1'
b2: host fault
E1
done
chmod 444 bin/b2.log
runs 0 <<'E1'
updated 0, failed 0, skipped 0, missing 0
E1
runs 0 --explain <<'E1'
copy bin/a: fresh
copy bin/sub/b: fresh
E1
echo text > x
dated x
faults 'copy bin/a'
runs 4 --clean <<'E1'
...removed bin/a...
b2: host fault
E1
chmod 644 bin/b2.log
recovers 'copy bin/a' 'copy bin/sub/b'

chmod 0 bin
faults
chmod 755 bin
chmod 0 x
dated x
runs 1 <<'E1'
copy bin/a
...failed copy bin/a...
...skipped bin/sub/b...
updated 0, failed 1, skipped 1, missing 0
E1
chmod 644 x
chmod 0 Jamroot
echo 'b2: host fault' > "$work/refusal"
for option in "" -n --show --explain --clean; do
    runs 4 $option < "$work/refusal"
done
chmod 644 Jamroot
: > F
chmod 0 F
runs 4 -f F < "$work/refusal"
rm -f F
recovers 'copy bin/a' 'copy bin/sub/b'

B2=$owners_b2

# ---- a disk without room

# In a file system of 64 KiB that is full neither a command nor b2 can write; what is built once there is room is right.
cat > "$work/no-room" <<'E1'
mount -t tmpfs -o size=64k tmpfs disk && cd disk && cp ../Jamroot ../x . || exit
cat /dev/zero > fill 2> /dev/null
"$B2"; echo "status $?"
ls bin
# This output takes no room, and its record takes some.
"$B2" empty; echo "status $?"
cat bin/b2.log
rm fill
"$B2"; echo "status $?"
cmp x bin/sub/b
"$B2"; echo "status $?"
E1
a_chain full-disk
printf '%s\n' 'actions touch { : > $(<) }' 'make empty : : @touch ;' 'explicit empty ;' >> Jamroot
mkdir disk
if unshare -rm mount -t tmpfs -o size=64k tmpfs disk 2> /dev/null; then
    cat > "$work/expected" <<'E1'
copy bin/a
...failed copy bin/a...
...skipped bin/sub/b...
updated 0, failed 1, skipped 1, missing 0
status 1
touch bin/empty
b2: host fault
status 4
copy bin/a
copy bin/sub/b
updated 2, failed 0, skipped 0, missing 0
status 0
updated 0, failed 0, skipped 0, missing 0
status 0
E1
    B2=$B2 unshare -rm sh "$work/no-room" > "$work/happened" 2>&1
    passes "builds on a full disk" diff "$work/expected" "$work/happened"
else
    echo "No file system can be mounted here: no full disk was tried."
fi

# ---- what was built is damaged

a_chain damaged
recovers 'copy bin/a' 'copy bin/sub/b'
size=$(wc -c < bin/b2.log)
head -c $((size - 3)) bin/b2.log > "$work/log"
cp "$work/log" bin/b2.log
recovers 'copy bin/sub/b'
echo edited >> bin/a
dated bin/a
recovers 'copy bin/a' 'copy bin/sub/b'
rm bin/sub/b
recovers 'copy bin/sub/b'
rm bin/b2.log
recovers 'copy bin/a' 'copy bin/sub/b'

# ---- b2 is ended while a command runs

# The command of the second step ends b2, and leaves half of its output.
a_chain ended
printf '%s\n' "$copies" 'actions end { echo te > $(<) ; test -e on || { kill -9 $PPID ; exit 1 ; } ; cp -T $(>) $(<) }' \
    'make a : x : @copy ;' 'make sub/b : a : @end ;' > Jamroot
"$B2" > "$work/printed" 2> /dev/null
echo $? > "$work/status"
passes "b2 was ended" [ "$(cat "$work/status")" = 137 ]
# The line of a start is written after the start, and so perhaps not at all.
passes "what b2 wrote before it was ended" [ "$(head -n 1 "$work/printed")" = 'copy bin/a' ]
passes "half of an output" grep -qx te bin/sub/b
touch on
recovers 'end bin/sub/b'

# ---- standard output fails

# b2_to SIGN WORD ..: b2 with its standard output closed (-) or to this file; the status is left in the file status
b2_to() {
    to=$1; shift
    case $to in
    -) "$B2" "$@" >&- 2> "$work/errors" ;;
    *) "$B2" "$@" > "$to" 2> "$work/errors" ;;
    esac
    echo $? > "$work/status"
}

for to in - /dev/full; do
    a_chain output-fails
    sed -i 's/{ cp/{ sleep 1 ; cp/' Jamroot
    for words in -n --show --explain --clean -x nothing; do
        b2_to "$to" $words
        passes "status of b2 $words to $to" [ "$(cat "$work/status")" = 6 ]
    done
    leaves 'Jamroot x'
    b2_to "$to"
    passes "status of b2 to $to" [ "$(cat "$work/status")" = 6 ]
    passes "b2 to $to waits for what it started, and starts no more" [ "$(ls bin)" = a ]
    holds bin/a < x
    recovers 'copy bin/a' 'copy bin/sub/b'
done
