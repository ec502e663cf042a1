#!/usr/bin/env bash
# Measures anew what docs/PERFORMANCE.md shows, and puts it there: the benchmark's tables and callgrind's instructions by crate.
# On a quiet machine, some minutes.
#
#   scripts/performance.sh [RUNS]
set -eu
cd "$(dirname "$0")/.."
page=docs/PERFORMANCE.md
mkdir -p target/performance
scripts/build.sh linker
scripts/bench.sh "$@" > target/performance/bench
scripts/profile.sh --crates > target/performance/crates
{
    sed -n "s/^On \\(.*\\), both built.*/\\1,/p" target/performance/bench
    echo "$(date -u +%F), $(git rev-parse --short HEAD)$(git diff --quiet HEAD -- crates || echo ' and what is not committed'), $(rt version), $(rustc --version),"
    echo "load $(cut -d' ' -f1 /proc/loadavg) on $(nproc) processors"
} | paste -sd' ' > target/performance/run
sed -n '/^Microseconds/,$p' target/performance/bench > target/performance/tables
# each part stands between a line <!-- NAME --> and the next <!-- end -->
awk -v dir=target/performance '
    /^<!-- (run|tables|crates) -->$/ { print; while ((getline line < (dir "/" $2)) > 0) print line; skip = 1; next }
    /^<!-- end -->$/ { skip = 0 }
    !skip { print }
' "$page" > target/performance/page
cp target/performance/page "$page"
