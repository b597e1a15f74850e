#!/usr/bin/env bash
# All that is tested from outside Rattle: the workspace's tests, the comparison with the second judge, every example
# against its stored output, and the C and Python interfaces. Builds target/bin/verdict and target/staticlib/libcapi.a
# if they are not there; MALLUVOM_LIB_DIR names another folder of libcapi.a. The last line is 'N passed, M failed'.
set -u
cd "$(dirname "$0")" || exit 2
work=$(mktemp -d)
# The tests' folders have links, which rt ci refuses anywhere in the checkout.
trap 'rm -rf "$work" target/tmp' EXIT
library=${MALLUVOM_LIB_DIR:-../target/staticlib}/libcapi.a
passed=0
failed=0

# try NAME COMMAND...: runs a check; what it prints is shown if it fails.
try() {
    local name=$1
    shift
    if "$@" >"$work/out" 2>&1; then
        echo "ok   $name"
        passed=$((passed + 1))
    else
        cat "$work/out"
        echo "FAIL $name"
        failed=$((failed + 1))
    fi
}

builds_without_warnings() {
    cargo build --release --all-targets 2>&1 | tee "$work/build"
    [ "${PIPESTATUS[0]}" -eq 0 ] && ! grep -q '^warning' "$work/build"
}

# Every example through a program that prints as the verdict program does, against its stored output.
examples_print() {
    local log status=0
    for log in ../examples/*/*.log; do
        if ! "$@" <"$log" | diff - "${log%.log}.out"; then
            echo "differs: $log"
            status=1
        fi
    done
    return $status
}

# The wrapper's example as a crate of another workspace, which depends on the wrapper by its path.
another_workspace() {
    local crate=$work/elsewhere
    mkdir -p "$crate/src"
    cp malluvom/examples/verdict.rs "$crate/src/main.rs"
    cat >"$crate/Cargo.toml" <<END
[workspace]

[package]
name = "elsewhere"
version = "0.1.0"
edition = "2021"

[dependencies]
malluvom = { path = "$PWD/malluvom" }
END
    (cd "$crate" && CARGO_TARGET_DIR=target cargo build --offline -q) && examples_print "$crate/target/debug/elsewhere"
}

# Nobody can tell what a relative folder is relative to, and the build says so.
relative_folder() {
    ! MALLUVOM_LIB_DIR=. CARGO_TARGET_DIR=$work/relative cargo build -q -p malluvom-sys >"$work/relative.txt" 2>&1 &&
        grep 'MALLUVOM_LIB_DIR must be an absolute path' "$work/relative.txt"
}

# gives STATUS COMMAND...: the command has this exit status.
gives() {
    local expected=$1 status
    shift
    "$@" >/dev/null
    status=$?
    [ "$status" -eq "$expected" ] || { echo "$* has status $status, not $expected"; return 1; }
}

# The verdict script prints what the program prints and has a status, also through a link.
verdict_script() {
    local log=../examples/marked/04.log expected=../examples/marked/04.out
    ln -s "$(realpath ../verdict)" "$work/link"
    ../verdict "$log" | diff - "$expected" && ../verdict - <"$log" | diff - "$expected" &&
        ../verdict <"$log" | diff - "$expected" && "$work/link" "$log" | diff - "$expected" &&
        gives 0 ../verdict "$log" && gives 1 ../verdict ../examples/marked/05.log &&
        gives 1 ../verdict ../examples/edges/01-empty.log && gives 1 "$work/link" ../examples/marked/05.log &&
        gives 2 ../verdict /nowhere && gives 2 ../verdict .. && gives 2 ../verdict a b
}

c_example() {
    gcc -std=c99 -Wall -Wextra -Werror -pedantic -I../include ../include/example.c "$library" -o "$work/example" &&
        examples_print "$work/example"
}

python_module() {
    ../python/build.sh && python3 -m unittest discover -s ../python
}

proved_library() {
    [ -f "$library" ] || ../tools/build capi
}

verdict_program() {
    [ -x ../target/bin/verdict ] || ../tools/build verdict
}

try "the proved library" proved_library
try "the verdict program" verdict_program
try "format" cargo fmt --check
try "build without warnings" builds_without_warnings
try "documentation without warnings" env RUSTDOCFLAGS="-D warnings" cargo doc -q --no-deps
try "tests" cargo test -q
try "what the tool gives to machines" python3 ../tests/tool_output.py target/release/malluvom
try "examples: both judges" target/release/compare examples ../examples
try "examples: stored outputs" examples_print ../target/bin/verdict
try "the verdict script" verdict_script
try "examples: from C" c_example
try "examples: from Python" python_module
try "examples: from another workspace" another_workspace
try "a relative library folder" relative_folder
try "comparison with the second judge" target/release/compare
tail -n 1 "$work/out"

echo "$passed passed, $failed failed"
[ "$failed" -eq 0 ]
