#!/usr/bin/env bash
# build.sh [FILE]: makes the shared library that the package malluvom loads, target/python/libcxl0.so or FILE, from
# libcapi.a. MALLUVOM_LIB_DIR names the folder of libcapi.a. Without it that is target/staticlib, and rt proves and
# builds a libcapi.a that is not there yet.
set -eu
root=$(cd "$(dirname "$0")/.." && pwd)
file=${1:-$root/target/python/libcxl0.so}
named=${MALLUVOM_LIB_DIR:-}
library=${named:-$root/target/staticlib}/libcapi.a

fail() {
    echo "build.sh: $1" >&2
    exit 2
}

# pip runs this script in another folder than the one that it was called in.
case $named in
"" | /*) ;;
*) fail "MALLUVOM_LIB_DIR must be an absolute path, and is $named" ;;
esac
if [ -z "$named" ] && [ ! -f "$library" ]; then
    command -v rt >/dev/null || fail "$library is not there, and neither is rt, which builds it"
    "$root/tools/build" capi >&2
fi
[ -f "$library" ] || fail "$library is not there"
mkdir -p "$(dirname "$file")"
gcc -shared -o "$file" -Wl,--whole-archive "$library" -Wl,--no-whole-archive
