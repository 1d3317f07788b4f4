#!/bin/sh
# Prints how many bytes of a message of two megabytes are read in a second, and that as a ratio to copying it.
cd "$(dirname "$0")/../crates/message_bench" || exit 1
rt run -- time | awk '
    $1 == "read" { printf "read %.1f MB/s, copied %.1f MB/s, ratio %.4f\n", $2 / 1e6, $4 / 1e6, $2 / $4; found = 1 }
    END { exit !found }'
