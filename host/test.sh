#!/usr/bin/env bash
# The host's tests: the safe wrapper, the header, the C program and the examples over the proved library, the plain monitor by itself, and
# the two against each other; and whether the trials find faults, some of which are drawn (faults.sh tries all). They read
# target/staticlib/libmonitor.a and the programs in target/bin, which `tools/build` writes, or, where
# the machine is not x86-64, what `tools/native target/native` makes of them; whatever the environment says.
#
#   test.sh [FOLDER]     with FOLDER, its library and its programs are tested instead. One with a libmonitor.so alone is a stand-in's: it has no
#                        logcheck, and the tests that are passed over for that are counted and named
set -euo pipefail
folder=${1:+$(cd "$1" && pwd)}
cd "$(dirname "$0")"
unset MONITOR_LIB_DIR MONITOR_REPLAY MONITOR_LOGCHECK MONITOR_STAND_IN
passed_over=$(mktemp)
trap 'rm -f "$passed_over"' EXIT
if [ -n "$folder" ]; then
    export MONITOR_LIB_DIR=$folder MONITOR_REPLAY=$folder/replay MONITOR_LOGCHECK=$folder/logcheck LD_LIBRARY_PATH=$folder
    [ -e "$folder/libmonitor.a" ] || export MONITOR_STAND_IN=$passed_over
fi
# Cargo passes over a test in src/, and over a file of tests that main.rs does not name.
if grep -rn '#\[test\]' src plain/src trial/src; then
    echo "host: a test in src/ is not run: it belongs in tests/" >&2
    exit 1
fi
for file in {.,plain,trial}/tests/all/*.rs; do
    name=$(basename "$file" .rs)
    if [ "$name" != main ] && ! grep -qx "mod $name;" "$(dirname "$file")/main.rs"; then
        echo "host: $file is not run: main.rs does not name it" >&2
        exit 1
    fi
done
cargo test --release --offline --locked
for example in night_log sunday; do
    cargo run --release --offline --locked --quiet --example "$example" | diff - "examples/$example.txt"
done
RUSTDOCFLAGS="-D warnings" cargo doc --offline --locked --quiet --no-deps --package monitor
./faults.sh --drawn 15
if [ -s "$passed_over" ]; then
    echo "host: a stand-in passed all tests but $(wc -l <"$passed_over"), which were passed over: $(sort "$passed_over" | paste -sd ' ')"
else
    echo "host: all tests passed"
fi
