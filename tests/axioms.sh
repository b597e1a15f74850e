#!/usr/bin/env bash
# No proof rests on an axiom. A check refuses the axioms of antt and of a crate; what it may assume is the contract of a
# C function that Rattle's own libraries call. `rt check --list-axioms` of a program or a static library lists these, and
# marks as `reached` those that its proof reaches in any crate; the last line, 'logic=proved ..', counts them after
# 'axioms=', and after 'foreign=' it names C functions that the crate declares. The check of a plain library is silent
# about them, so each library that no other crate uses is checked as a static library. The libraries rest on none. Each
# program rests on what std says of reading, of writing and of the error where one fails, and on nothing else.
set -u
cd "$(dirname "$0")/.." || exit 2
fails=0

# What std says of reading and writing, and of the number and the text of an error.
of_std='libc::read libc::write os::c::__xpg_strerror_r os::c::rattle_errno'

# listed CRATE: what its check prints, a library's as that of a static one.
listed() {
    local as_static=(--crate-type staticlib)
    if [ -f "crates/$1/src/main.rt" ] || grep -qE "^$1 staticlib:" crates.txt; then as_static=(); fi
    (cd "crates/$1" && rt check --list-axioms ${as_static[@]+"${as_static[@]}"}) 2>&1
}

# assumed: what the check whose output is read assumes, a word for each; or that it proves nothing, or counts otherwise.
assumed() {
    awk '/^  [^ ]+ +reached$/ { print $1; names++ }
         /^logic=/ { verdict = $0 }
         END {
             if (verdict !~ /^logic=proved /) print "nothing-proved"
             n = split(verdict, word, " ")
             for (i = 1; i <= n; i++) {
                 if (word[i] ~ /^foreign=/) print word[i]
                 if (word[i] ~ /^axioms=/) count = substr(word[i], 8)
             }
             if (count + 0 != names + 0) print "axioms=" count + 0 "-and-" names + 0 "-named"
         }'
}

# expect NAME WANTED: what the check whose output is read assumes is WANTED, in any order.
expect() {
    local found
    found=$(assumed | sort | paste -sd ' ')
    if [ "$found" != "$2" ]; then
        echo "$1 assumes '$found', where '$2' is expected"
        fails=1
    fi
}

# Two crates that assume something: this script must see it.
try_itself() {
    local room here=$PWD
    room=$(mktemp -d)
    mkdir -p "$room"/crates/{removes,declares}/src
    printf 'removes:\ndeclares:\n' >"$room/crates.txt"
    cat >"$room/crates/removes/src/main.rt" <<'END'
fn main(rt: HostRuntime) -> std::io::Result<()> { std::fs::remove_file(&rt, "a") }
END
    echo 'unsafe extern "C" { safe fn c() -> u8; } pub fn call() -> u8 { c() }' >"$room/crates/declares/src/lib.rt"
    cd "$room" || exit 2
    if ! listed removes | assumed | grep -qx libc::unlink; then
        echo "a program that removes a file: what it assumes was not seen"
        fails=1
    fi
    if ! listed declares | assumed | grep -qE '^(foreign=.*|nothing-proved)$'; then
        echo "a library with a C function: it was not seen"
        fails=1
    fi
    cd "$here" || exit 2
    rm -rf "$room"
}

try_itself
crates=$(sed -nE 's/^(\w+)( [^:]*)?:.*/\1/p' crates.txt)
[ -n "$crates" ] || fails=1
for name in $crates; do
    if sed -nE 's/^\w+[^:#]*:([^#]*).*/\1/p' crates.txt | grep -qw "$name"; then continue; fi
    wanted=''
    if [ -f "crates/$name/src/main.rt" ]; then wanted=$of_std; fi
    expect "$name" "$wanted" < <(listed "$name")
done
exit "$fails"
