#!/bin/sh
# Builds the reference with one wrong rule, apart from the right build, and
# shows that the comparison with the right one fails within five lines.
set -eu
cd "$(dirname "$0")"
cargo build --release --offline -j1 --features wrong-rule --target-dir target/wrong
if target/wrong/release/compare --itself --lives 1000 > target/wrong/report.txt; then
    echo "the wrong rule was not caught"
    exit 1
fi
cat target/wrong/report.txt
grep -q '^shortened to [1-5] lines' target/wrong/report.txt
