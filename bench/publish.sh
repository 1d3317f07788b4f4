#!/bin/sh
# Times takes of a view by a pass while a writer publishes without pause, against clones of a snapshot behind a lock while a writer
# replaces it without pause, with 1, 2 and 4 readers, each in a thread of its own; and a commit without readers over a feed of three
# runs and over a city of some 20,000 stops and 100,000 trips on its day. It prints the nanoseconds of each and their ratios, the
# middle one of 21 rounds in turn. Words are handed to city.py.
#
# It fails where a take is slower than a clone, or a commit over the city takes more than twice as long as one over the small feed.
folder=$(mktemp -d) || exit 1
trap 'rm -rf "$folder"' EXIT
bench=$(cd "$(dirname "$0")" && pwd) || exit 1
cd "$bench/../crates/publish_bench" || exit 1
days="--zone Etc/UTC=UTC0 --from 20240506 --days 1 --reach 0"
rt run -- plan data/f counts $days >/dev/null 2>&1 ||
    { echo "publish_bench is not built: rt run in crates/publish_bench says why" >&2; exit 1; }
python3 "$bench/city.py" "$folder" "$@" || exit 1

{ ./out/publish_bench plan data/f time $days && ./out/publish_bench plan "$folder" time $days; } | awk '
    { for (place = 2; place <= NF; place++) { split($place, pair, "="); value[pair[1]] = pair[2] } }
    $1 == "feed" { runs = value["runs"] }
    $1 == "publish" {
        took = value["ns"] / value["commits"]
        printf "%d runs: a commit %.0f ns", runs, took
        if (count++ == 0) { small = took; printf "\n" }
        else { printf "; %.2f times that over the small feed\n", took / small; if (took > 2 * small) missed = 1 } }
    $1 == "takes" && value["refused"] + value["fell"] > 0 { print "refused or fell: " $0; missed = 1 }
    $1 == "race" {
        takes = value["readers"] * value["each"]
        printf "%d runs, %d readers: a take %.1f ns, a clone behind the lock %.1f ns", runs, value["readers"], value["pass_ns"] / takes, value["lock_ns"] / takes
        printf "; ratio %.2f; %d published, %d replaced\n", value["pass_ns"] / value["lock_ns"], value["published"], value["replaced"]
        races++
        if (value["pass_ns"] > value["lock_ns"]) missed = 1 }
    END { exit missed || count != 2 || races != 6 }'
