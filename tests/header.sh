#!/usr/bin/env bash
# include/cxl0.h and its example compile as C99 and as C++ without a warning, and what the header says beside the proved
# contracts holds (tests/header.c). Builds target/staticlib/libcapi.a if it is not there; MALLUVOM_LIB_DIR names another
# folder of it.
set -eu
cd "$(dirname "$0")/.."
library=${MALLUVOM_LIB_DIR:-target/staticlib}/libcapi.a
[ -f "$library" ] || tools/build capi
work=$(mktemp -d)
trap 'rm -rf "$work"' EXIT
for compiler in "gcc -std=c99" "g++ -x c++ -std=c++11"; do
    for source in include/example.c tests/header.c; do
        $compiler -Wall -Wextra -Werror -pedantic -Iinclude -c "$source" -o "$work/object.o"
        gcc "$work/object.o" "$library" -o "$work/program"
    done
    "$work/program"
done
