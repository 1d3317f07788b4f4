#!/bin/sh
# Makes a city of some 20,000 stops and 100,000 trips on its day, commits messages over it that each delay one trip in a
# hundred, first those of a few lines and then as many of all lines, and prints the milliseconds of each part, the ratio of a
# message to building the whole snapshot, and the megabytes that the snapshot and each later one took. Words are handed to city.py.
#
# It fails where a message for a few lines takes more than a tenth of the build, or one for all lines more than a half.
folder=$(mktemp -d) || exit 1
trap 'rm -rf "$folder"' EXIT
bench=$(cd "$(dirname "$0")" && pwd) || exit 1
cd "$bench/../crates/commit_bench" || exit 1
rt run -- plan data/f counts 1=data/late.pb --zone Etc/UTC=UTC0 --from 20240506 --days 1 >/dev/null 2>&1 ||
    { echo "commit_bench is not built: rt run in crates/commit_bench says why" >&2; exit 1; }
python3 "$bench/city.py" "$folder" "$@" || exit 1

# report KIND MOST: the messages of this kind, none of which may take more than so many hundredths of the build.
report() {
    ./out/commit_bench plan "$folder" time "1=$folder/$1-1" "1=$folder/$1-2" "1=$folder/$1-3" \
        --zone Etc/UTC=UTC0 --from 20240506 --days 1 --reach 0 | awk -v kind="$1" -v most="$2" '
        { for (place = 2; place <= NF; place++) { split($place, pair, "="); value[pair[1]] = pair[2] } }
        $1 == "load" { printf "%s: load %.0f ms\n", kind, value["us"] / 1000 }
        $1 == "index" { printf "%s: index of the feed %.1f ms\n", kind, value["us"] / 1000 }
        $1 == "feed" { printf "%s: %d runs\n", kind, value["runs"] }
        $1 == "build" { built = value["us"]; held = value["kilobytes"]
            printf "%s: build %.0f ms, %.0f MB\n", kind, built / 1000, (held - value["kilobytes_before"]) / 1024 }
        $1 == "commit" {
            took = value["read_us"] + value["prepare_us"] + value["apply_us"]
            line = sprintf("read %.1f, prepare %.1f, apply %.1f, together %.1f ms", value["read_us"] / 1000, value["prepare_us"] / 1000, value["apply_us"] / 1000, took / 1000)
            line = line sprintf("; of the build 1/%.1f; %.0f MB more", built / took, (value["kilobytes"] - held) / 1024)
            held = value["kilobytes"]
            if (took * 100 > built * most) missed = 1 }
        $1 == "message" { printf "%s: message of %d changes: %s\n", kind, value["changes"], line; count++ }
        END { exit missed || count != 3 }'
}

report few 10
few=$?
report all 50
all=$?
[ "$few" -eq 0 ] && [ "$all" -eq 0 ]
