#!/bin/sh
# build.sh: builds the host programs in build/ against build/libgeckoneedle.a (`make lib`): detect, threads and record, and
# replies, which tests the decoder.
# build.sh text: builds only what they link besides, build/libgeckoneedle_text.a, for which no library is needed.
set -eu
cd "$(dirname "$0")/.."
flags="-std=c99 -O2 -Wall -Wextra -Wpedantic -Werror -Iinclude -Ihosts"

# text: refusals in words, and the decoder. Position independent, as the library is, so that both can go into a shared object.
text() {
    mkdir -p build
    gcc $flags -fPIC -c hosts/geckoneedle_text.c -o build/geckoneedle_text.o
    rm -f build/libgeckoneedle_text.a
    ar rcs build/libgeckoneedle_text.a build/geckoneedle_text.o
}

# program NAME PARTS...: builds hosts/NAME.c with these other files of hosts/.
program() {
    name=$1
    shift
    gcc $flags -pthread "hosts/$name.c" "$@" build/libgeckoneedle_text.a build/libgeckoneedle.a -o "build/$name"
}

text
if [ "${1:-}" = text ]; then
    exit 0
fi
if ! [ -f build/libgeckoneedle.a ]; then
    echo "build/libgeckoneedle.a is missing: run 'make lib' first."
    exit 1
fi
program detect hosts/reading.c
program threads hosts/reading.c
program replies hosts/reading.c
program record hosts/reading.c hosts/numbers.c hosts/layout.c
