#!/bin/sh
# Tests the host programs: builds them, and holds what they print and their exit status to samples/ and hosts/expected. The Rust reference makes
# these (the gate checks that it still does); only hosts/expected/lists and hosts/expected/replies were typed from the documents. Then the
# installed tree, and what the Makefile proves again and what not. Says what is wrong and ends with status 1, or ends with 0.
set -eu
cd "$(dirname "$0")/.."
made="example stopped priors signed-priors full full-stopped wide weaker gauges"
refused="refused refused-wide refused-weak refused-owner"
written="bench tie points distance far ties"
broken="empty other-opening cut trailing"
samples=$(for name in $made $refused $written $broken; do echo samples/$name.rec; done)
short=$(for name in $made $written; do echo samples/$name.rec; done | grep -v full)

# The refusals that a record can meet.
refusals="1 2 3 4 5 6 7 8 9 10 11 12 13 15 16 17"

# The longest record's bytes and numbers, by the samples: full is as large a block, without a W and its 64 owners. The C side has them in
# geckoneedle.h and nowhere else, and must agree.
longest=$(($(wc -c <samples/too-long.rec) - 1))
most=$(($(sed 's/#.*//' samples/full.numbers | wc -w) + 65))

fail() {
    echo "hosts: $1"
    exit 1
}

# Where what is printed is kept; other folders for the runs under valgrind, which go on beside the others.
out=build
checker="valgrind --quiet --error-exitcode=9 --leak-check=full"

# expect STATUS WHAT COMMAND...: runs the command, its output to $out/printed and $out/complaints, and asks for this exit status.
expect() {
    wanted=$1
    what=$2
    shift 2
    status=0
    "$@" >$out/printed 2>$out/complaints || status=$?
    [ "$status" -eq "$wanted" ] || fail "$what: exit status $status where $wanted is due: $(cat $out/complaints)"
}

# same EXPECTED PRINTED WHAT: asks for equal files.
same() {
    cmp "$1" "$2" || fail "$3: what was printed, $2, is not $1"
}

# complains TEXT WHAT: asks that standard error has just this line.
complains() {
    [ "$(cat $out/complaints)" = "$1" ] || fail "$2: standard error says '$(cat $out/complaints)' and not '$1'"
}

# The next three run build/record, under a checker if one is named.

# write_samples CHECKER...: the record of each accepted sample's text.
write_samples() {
    for name in $made $written; do
        expect 0 "the record of $name" "$@" build/record "samples/$name.numbers"
        complains "" "the record of $name"
        same "samples/$name.rec" $out/printed "the record of $name"
    done
}

# read_samples CHECKER...: the numbers of each accepted sample's record: word for word the reference's text, or where the sample's own text was
# written by hand, one that gives the same record.
read_samples() {
    for name in $made $written; do
        expect 0 "the numbers of $name" "$@" build/record -n "samples/$name.rec"
        complains "" "the numbers of $name"
        cp $out/printed "$out/$name.numbers"
        expect 0 "the record of the numbers of $name" build/record "$out/$name.numbers"
        same "samples/$name.rec" $out/printed "the record of the numbers of $name"
    done
    for name in $made; do
        same "samples/$name.numbers" "$out/$name.numbers" "the numbers of $name"
    done
}

# refuse_lists CHECKER...: each text of hosts/expected/lists, written there as printf takes it, and behind a bar what is said of it. No file is
# made.
refuse_lists() {
    rm -f $out/none.rec
    while IFS='|' read -r text words; do
        printf '%b' "$text" >$out/list.numbers
        expect 1 "the list '$text'" "$@" build/record -o $out/none.rec $out/list.numbers
        complains "$out/list.numbers: $words" "the list '$text'"
        ! [ -e $out/none.rec ] || fail "the list '$text': a record is made"
    done <hosts/expected/lists
}

# decode_replies RECORDS CHECKER...: build/replies on the list of replies, and on these records' replies, whole, cut off behind each byte, and with
# each byte altered.
decode_replies() {
    records=$1
    shift
    expect 0 "the decoder on hosts/expected/replies" "$@" build/replies -l <hosts/expected/replies
    complains "" "the decoder on hosts/expected/replies"
    expect 0 "the decoder on the samples' replies" "$@" build/replies $records
    complains "" "the decoder on the samples' replies"
}

# compiles COMPILER...: the two headers, each alone, and the decoder, without a warning.
compiles() {
    for source in include/geckoneedle.h hosts/geckoneedle_text.h hosts/geckoneedle_text.c; do
        "$@" -Wall -Wextra -Werror -pedantic -fsyntax-only -Iinclude $source || fail "$source does not compile by $*"
    done
}

# make_here ARGUMENTS...: make, with no arguments of a make that runs this test. It takes the library as it is, as all else here does, even where
# something is newer that it is made from.
make_here() {
    MAKEFLAGS= make --silent --old-file=build/libgeckoneedle.a "$@"
}

# Makes a tree of its own in build/tree, with a stand-in for rt that proves nothing: it notes the crate and its arguments, says what rt would
# say, and gives the library that is there, or a program. Or it fails, where a file asks for it.
plant_tree() {
    rm -rf build/tree
    mkdir -p build/tree/bin build/tree/crates/one/src build/tree/crates/geckoneedle_c/src build/tree/crates/list/src
    cp -R Makefile .ci crates.txt include hosts samples build/tree
    cp build/libgeckoneedle.a build/tree/bin
    echo "fn one" >build/tree/crates/one/src/one
    cat >build/tree/bin/rt <<'script'
#!/bin/sh
crate=${PWD##*/}
cd ../..
echo "$crate" "$@" >>calls
echo "rt: chose --jobs 2 for one"
echo "fn one::one: proved"
[ ! -f fails ] || { echo "logic=not-proved"; exit 1; }
echo "logic=proved functions=1"
echo "rt: chose --jobs 2 for $crate"
echo "logic=proved functions=3"
mkdir -p "crates/$crate/out"
case $1 in
lib) cp bin/libgeckoneedle.a "crates/$crate/out/lib$crate.a" ;;
run)
    printf '#!/bin/sh\nwc -c\n' >"crates/$crate/out/$crate"
    chmod +x "crates/$crate/out/$crate"
    "crates/$crate/out/$crate"
    ;;
esac
script
    chmod +x build/tree/bin/rt
}

# makes STATUS CALLS TARGETS...: make in that tree; asks for this exit status, and for these calls of rt, as "a b, c d, ".
makes() {
    calls=$2
    : >build/tree/calls
    wanted=$1
    shift 2
    expect "$wanted" "make $*" env MAKEFLAGS= PATH="$PWD/build/tree/bin:$PATH" make -C build/tree --no-print-directory "$@"
    called=$(awk '{ printf "%s, ", $0 }' build/tree/calls)
    [ "$called" = "$calls" ] || fail "make $*: rt is called with '$called' where '$calls' is due"
}

# What valgrind sees of the programs: no error, no leak, no race.
checked_memory() {
    out=build/memory
    mkdir -p $out
    expect 1 "valgrind" $checker build/detect $samples
    complains "" "valgrind"
    expect 0 "valgrind, two threads" $checker build/threads 1 $samples
    complains "" "valgrind, two threads"
    expect 0 "helgrind, two threads" valgrind --tool=helgrind --quiet --error-exitcode=9 build/threads 1 $samples
    complains "" "helgrind, two threads"
    write_samples $checker
    read_samples $checker
    decode_replies "$short" $checker
}

# and of the refused lists, which are as many starts of valgrind as all else.
checked_lists() {
    out=build/memory-lists
    mkdir -p $out
    refuse_lists $checker
}

hosts/build.sh || fail "the host programs do not build"

memory=
if command -v valgrind >/dev/null; then
    (checked_memory) >build/memory-out 2>&1 &
    memory=$!
    (checked_lists) >build/lists-out 2>&1 &
    lists=$!
else
    echo "hosts: SKIPPED: valgrind is not installed, so nothing was run under it"
fi

# Samples: word for word, and the exit status says that some are refused.
expect 1 "the samples" build/detect $samples
same hosts/expected/samples build/printed "the samples"
expect 0 "accepted samples" build/detect samples/example.rec samples/full.rec samples/wide.rec

# Every refusal in words: 14 by a buffer that is a byte short, the others by a record each.
mkdir -p build/refusals
cargo run --quiet --offline --release --manifest-path rust/Cargo.toml --bin samples -- --refusals build/refusals ||
    fail "the records for the refusals cannot be made"
: >build/refusals/printed
for number in $refusals; do
    expect 1 "refusal $number" build/detect "build/refusals/$number.rec"
    sed "s|^build/refusals/||" build/printed >>build/refusals/printed
done
expect 1 "refusal 14" build/detect -b 40 samples/example.rec
cat build/printed >>build/refusals/printed
same hosts/expected/refusals build/refusals/printed "the refusals"
expect 0 "a buffer that just does" build/detect -b 41 samples/example.rec

# The decoder. What build/detect printed of the samples above went through it too, and is the reference's.
compiles gcc -std=c99 -x c
decode_replies "$samples"
echo "hosts: $(cat build/printed)"

# Files that are no records: said on standard error, and the other files are still run.
expect 1 "a missing file" build/detect build/missing.rec samples/example.rec
complains "build/missing.rec: the file cannot be opened: No such file or directory" "a missing file"
grep -q "vector 2: stopped after 2 nodes, label 2, soft values -10 10" build/printed || fail "the file after a missing one is not run"
expect 1 "a folder" build/detect samples
complains "samples: the file cannot be read: Is a directory" "a folder"
expect 1 "too large a file" build/detect samples/too-long.rec
complains "samples/too-long.rec: the file is too large, a record has at most $longest bytes" "too large a file"
expect 2 "no file" build/detect
expect 2 "no buffer length" build/detect -b 41x samples/example.rec

# Records from numbers, and numbers from records.
write_samples
read_samples
refuse_lists
expect 1 "the numbers of refused" build/record samples/refused.numbers
complains "samples/refused.numbers: line 13, column 1: number 25 is 1048576: vector 2, prior of stream 2, bit 1:\
 it must be -1048575 to 1048575 (refused by 12)" "the numbers of refused"
[ ! -s build/printed ] || fail "of refused numbers something is printed"
expect 1 "the numbers of refused-wide" build/record samples/refused-wide.numbers
complains "samples/refused-wide.numbers: line 1, column 3: number 2 is 8: Q, the bits of a symbol:\
 it must be 1, 2, 4 or 6, since at most three streams may have 8, and M is 4 (refused by 15)" "the numbers of refused-wide"
expect 1 "the numbers of refused-weak" build/record samples/refused-weak.numbers
complains "samples/refused-weak.numbers: line 2, column 10: number 5 is 11: W, the weak value: it must be 0 to C, and C is 10 (refused by 16)" \
    "the numbers of refused-weak"
expect 1 "the numbers of refused-owner" build/record samples/refused-owner.numbers
complains "samples/refused-owner.numbers: line 11, column 1: number 18 is 5: vector 2, owner: it must be 1 to 4 (refused by 17)" \
    "the numbers of refused-owner"

# The example in other words: signs, zeros in front, tabs, carriage returns, a comment right behind a number, no end of the last line.
printf '+2\t01 %01000d 10 3# sizes\r\n1 1 -0 1\r\n1 0 -1 0 0 0 \r\n\r\n\t# again\n1 1 0 1 1 0 -0001 +0 0 0' 2 >build/list.numbers
expect 0 "the example in other words" build/record build/list.numbers
same samples/example.rec build/printed "the example in other words"

# The opening in other words: said where it need not be, and not alone on the first line.
{ echo "opening 1" && cat samples/example.numbers; } >build/list.numbers
expect 0 "the example with its opening" build/record build/list.numbers
same samples/example.rec build/printed "the example with its opening"
{ printf '# weaker\r\n\n\topening# 2\n +02\t' && sed 1d samples/weaker.numbers; } >build/list.numbers
expect 0 "an opening in other words" build/record build/list.numbers
same samples/weaker.rec build/printed "an opening in other words"

# A full block with a W and owners: as many numbers as any record has. One more, and what is behind it does not matter.
{ echo "opening 3" && sed '1s/[0-9]* *# M Q N C D/0 &/; 1s/N C D/N C W D/; s/^# vector.*/&\n1   # owner/' samples/full.numbers; } >build/full.numbers
expect 0 "a full block with owners" build/record -o build/full.rec build/full.numbers
expect 0 "the numbers of a full block with owners" build/record -n build/full.rec
same build/full.numbers build/printed "the numbers of a full block with owners"
lines=$(($(wc -l <build/full.numbers)))
{ cat build/full.numbers && echo "4 abc"; } >build/list.numbers
expect 1 "a number more than any record has" build/record build/list.numbers
complains "build/list.numbers: line $((lines + 1)), column 1: number $((most + 1)) follows the last prior;\
 M, Q and N call for $most numbers (refused by 13)" "a number more than any record has"

# The longest record, there and back.
head -c "$longest" samples/too-long.rec >build/longest.rec
expect 0 "the numbers of the longest record" build/record -n build/longest.rec
cp build/printed build/longest.numbers
[ "$(sed '1d; s/#.*//' build/longest.numbers | wc -w)" -eq "$most" ] || fail "the longest record does not have $most numbers"
expect 0 "the longest record" build/record build/longest.numbers
same build/longest.rec build/printed "the longest record"

# Standard input; and a file for the record, which is made, replaced, or left as it is.
expect 0 "standard input" build/record <samples/bench.numbers
same samples/bench.rec build/printed "standard input"
printf '2 1 2 10 1' >build/list.numbers
expect 1 "refused standard input" build/record <build/list.numbers
complains "standard input: line 1, column 10: number 5 is 1: D, the share: it must be M to 17043520, and M is 2 (refused by 8)" \
    "refused standard input"
rm -f build/kept.rec
expect 0 "a new record" build/record -o build/kept.rec samples/full.numbers
same samples/full.rec build/kept.rec "a new record"
expect 0 "a record in another's place" build/record -o build/kept.rec <samples/example.numbers
same samples/example.rec build/kept.rec "a record in another's place"
[ ! -s build/printed ] || fail "with -o something is printed"
for text in samples/refused.numbers build/missing.numbers samples; do
    expect 1 "a record that is not made" build/record -o build/kept.rec "$text"
    same samples/example.rec build/kept.rec "a record that is not made"
done

# Files that cannot be read or written, and wrong arguments.
expect 1 "a missing text" build/record build/missing.numbers
complains "build/missing.numbers: the file cannot be opened: No such file or directory" "a missing text"
expect 1 "a folder for a text" build/record samples
complains "samples: the file cannot be read: Is a directory" "a folder for a text"
expect 1 "a folder for a record" build/record -o samples samples/example.numbers
complains "samples: the record cannot be written: Is a directory" "a folder for a record"
expect 1 "a record in a missing folder" build/record -o build/missing/kept.rec samples/example.numbers
complains "build/missing/kept.rec: the record cannot be written: No such file or directory" "a record in a missing folder"
for name in example full; do
    expect 1 "a full disk" build/record -o /dev/full "samples/$name.numbers"
    complains "/dev/full: the record cannot be written: No space left on device" "a full disk"
    expect 1 "a full disk behind standard output" sh -c "build/record samples/$name.numbers >/dev/full"
    complains "standard output: the record cannot be written: No space left on device" "a full disk behind standard output"
done
expect 1 "a full disk for the numbers" sh -c "build/record -n samples/full.rec >/dev/full"
complains "record: the output cannot be written" "a full disk for the numbers"
expect 1 "too large a record" build/record -n samples/too-long.rec
complains "samples/too-long.rec: the file is too large, a record has at most $longest bytes" "too large a record"
cp samples/example.numbers build/own.numbers
expect 2 "a record in its text's place" build/record -o build/own.numbers build/own.numbers
complains "record: the record would take the place of its own text, build/own.numbers" "a record in its text's place"
same samples/example.numbers build/own.numbers "a record in its text's place"
for arguments in "-x" "-o" "-n" "-n a b" "a b" "-o a b c" "-o a -n"; do
    expect 2 "record $arguments" build/record $arguments
    complains "usage: record [-o RECORD] [NUMBERS], record -n RECORD" "record $arguments"
done

# Every refusal of a record in the words that build/detect has for it.
: >build/refusals/complaints
for number in $refusals; do
    expect 1 "the numbers of a record refused by $number" build/record -n "build/refusals/$number.rec"
    sed "s|^build/refusals/||" build/complaints >>build/refusals/complaints
done
grep -v "refused by 14" hosts/expected/refusals >build/refusals/expected
same build/refusals/expected build/refusals/complaints "the numbers of refused records"

# The listing that README.md shows: the lines behind the command that prints it, up to an empty one, but for what is left out there.
awk '/^    \$/ { inside = $0 ~ /make run$/; next } /^$/ { inside = 0 } inside && $1 != "..." { sub(/^    /, ""); print }' README.md >build/readme.txt
same samples/example.txt build/readme.txt "README.md's listing"

# The program that README.md shows.
awk '/^```c$/ { inside = 1; next } /^```$/ { inside = 0 } inside' README.md >build/readme.c
make_here build/geckoneedle.h
gcc -std=c99 -Wall -Wextra -Werror -Ibuild build/readme.c build/libgeckoneedle.a -o build/readme || fail "README.md's program does not build"
[ "$(build/readme <samples/example.rec)" = "a reply of 17 bytes" ] || fail "README.md's program does not run"
[ "$(build/readme <samples/too-long.rec)" = "refused by 13" ] || fail "README.md's program takes too long a record"

# The text that README.md shows, which is the lines behind the command that prints it, and what is said of it with another share.
awk '/^    \$/ { inside = $0 ~ /cat block.numbers$/; next } inside { sub(/^    /, ""); print }' README.md >build/readme.numbers
expect 0 "README.md's text" build/record build/readme.numbers
same samples/example.rec build/printed "README.md's text"
sed "1s/10 3/10 1/" build/readme.numbers >build/block.numbers
expect 1 "README.md's text with another share" sh -c "cd build && ./record block.numbers"
grep -qxF "    $(cat build/complaints)" README.md || fail "README.md does not show what is said: $(cat build/complaints)"

# The installed tree, and a staged one, which is laid out alike and says where it will be.
rm -rf build/installed build/staged
make_here install DESTDIR= PREFIX="$PWD/build/installed" || fail "make install"
make_here install DESTDIR="$PWD/build/staged" PREFIX=/opt/gecko || fail "make install with a DESTDIR"
for tree in installed staged/opt/gecko; do
    [ "$(cd build/$tree && find . -type f | sort | tr '\n' ' ')" = "./include/geckoneedle.h ./include/geckoneedle_text.h\
 ./lib/libgeckoneedle.a ./lib/libgeckoneedle_text.a ./lib/pkgconfig/geckoneedle.pc " ] || fail "make install: build/$tree has other files"
done
grep -qx "prefix=/opt/gecko" build/staged/opt/gecko/lib/pkgconfig/geckoneedle.pc || fail "make install: a staged geckoneedle.pc has another prefix"

# A program that has nothing but the installed tree prints each sample's answers: the reference's, in other words.
sed -n -e 's/^  vector [0-9]*: complete after [0-9]* nodes*, label \([0-9]*\), soft values/label \1:/p' \
    -e 's/^  vector [0-9]*: stopped after [0-9]* nodes*, label \([0-9]*\), soft values\(.*\)/label \1:\2 (stopped)/p' \
    hosts/expected/samples >build/minimal.expected
# minimal COMPILER...: builds hosts/minimal.c by this compiler and what pkg-config says, and runs it.
minimal() {
    rm -f build/minimal
    "$@" -Wall -Wextra -Werror -pedantic hosts/minimal.c $flags -o build/minimal || fail "hosts/minimal.c does not build by $*"
    for name in $made $written; do
        build/minimal <samples/$name.rec || fail "hosts/minimal.c does not accept $name"
    done >build/minimal.printed
    same build/minimal.expected build/minimal.printed "hosts/minimal.c"
    expect 1 "hosts/minimal.c on a refused record" build/minimal <samples/refused.rec
    [ "$(cat build/printed)" = "refused: a prior is not -1048575 to 1048575" ] || fail "hosts/minimal.c does not say why a record is refused"
}
if command -v pkg-config >/dev/null; then
    export PKG_CONFIG_PATH="$PWD/build/installed/lib/pkgconfig"
    flags=$(pkg-config --cflags --libs geckoneedle) || fail "pkg-config does not find what was installed"
    version=$(pkg-config --modversion geckoneedle)
    grep -q "^#define GECKONEEDLE_VERSION \"$version\"" include/geckoneedle.h || fail "geckoneedle.pc has version '$version', not the header's"
    minimal gcc -std=c99
else
    echo "hosts: SKIPPED: pkg-config is not installed, so no program was built against the installed tree"
fi
if command -v g++ >/dev/null; then
    compiles g++ -x c++
    ! command -v pkg-config >/dev/null || minimal g++ -x c++
else
    echo "hosts: SKIPPED: g++ is not installed, so nothing was compiled as C++"
fi

# The Makefile: lists what there is; says a line for each crate; and proves again what has changed, and nothing else.
plant_tree
makes 0 "" help
cp build/printed build/help
makes 0 ""
same build/help build/printed "make alone"
for target in run list record numbers lib host install test bench instructions figures clean; do
    grep -q "^make $target " build/help || fail "make does not list '$target'"
done
makes 2 "" list
makes 2 "" record NUMBERS=missing RECORD=none
lib="geckoneedle_c lib --cpu=x86-64, "
makes 0 "$lib" lib
[ "$(tr '\n' ';' <build/printed)" = "one proved;geckoneedle_c proved;" ] || fail "make lib: not a line for each crate: $(cat build/printed)"
grep -q "fn one::one: proved" build/tree/build/lib.log || fail "make lib: build/lib.log has not what rt says"
makes 0 "" lib host install numbers PREFIX=installed RECORD=samples/example.rec
makes 0 "list run, " run
makes 0 "" run
rm -r build/tree/crates/*/out
makes 0 "" run lib list RECORD=samples/example.rec
touch build/tree/include/geckoneedle.h build/tree/hosts/geckoneedle_text.c
makes 0 "" lib host install PREFIX=installed
echo "fn two" >build/tree/crates/one/src/two
makes 0 "${lib}list run, " host run
rm build/tree/crates/one/src/two
: >build/tree/fails
makes 2 "$lib" host
grep -q "logic=not-proved" build/printed || fail "make host: what rt refuses is not shown"
makes 2 "list run, " run
rm build/tree/fails
makes 0 "list run, $lib" run lib
makes 0 "" run lib host
makes 0 "" clean
[ ! -e build/tree/build ] || fail "make clean leaves build/"
rm -r build/tree

# Two threads at once, against one.
expect 0 "two threads" build/threads 50 $samples
cat build/printed

if [ -n "$memory" ]; then
    wait "$memory" || fail "under valgrind: $(cat build/memory-out)"
    wait "$lists" || fail "under valgrind: $(cat build/lists-out)"
    echo "hosts: no error under valgrind"
fi
