#!/bin/sh
# Builds and runs each kernel and its plain loop over columns of 8, 64, 1,024 and 65,536 entries, and prints the nanoseconds
# that 4,000,000 entries took and how many times as fast the kernel is. Each figure is the least of fifteen runs.
set -e
cd "$(dirname "$0")/../crates/kernel_bench"
rt run >/dev/null 2>&1 || { echo "kernel_bench is not built: rt run in crates/kernel_bench says why" >&2; exit 1; }
./out/kernel_bench time
