#!/bin/sh
# Makes a small and a large city, of some 3,600 stops with 0.4 million calls a day and 20,000 stops with 3.8 million, and plans 40 queries
# over each, with one day and with seven: it prints the milliseconds of a load and a snapshot, the milliseconds of a plan (the mean over the
# queries of the least of three times), the sums of journeys, rides and costs, and the megabytes that the process held at most. Then over one
# day how a plan grows with the window, the rides and the points of a walk; and whether enumeration gives the same values over a feed of four stops.
#
# Where YARDSTICK names a program that plans the same queries over the same folder, by the words FOLDER QUERIES --from DAY --days N, and that
# prints lines `plan least .. ms` and `.. journeys=N rides=N cost=N`, it runs that too and prints the ratio of the times and whether the sums are
# the same; where they aren't, the script fails.
folder=$(mktemp -d) || exit 1
trap 'rm -rf "$folder"' EXIT
bench=$(cd "$(dirname "$0")" && pwd) || exit 1
cd "$bench/../crates/plan_bench" || exit 1
program=./out/plan_bench
zone="--zone Etc/UTC=UTC0 --from 20240506"
[ -x "$program" ] || { echo "plan_bench is not built: rt run in crates/plan_bench says why" >&2; exit 1; }
$program plan data/f compare 1=data/queries $zone --days 1 >/dev/null || { echo "enumeration gives other values" >&2; exit 1; }
echo "enumeration gives the same values"
failed=0

# value NAME TEXT: the number of NAME=.. in a text.
value() {
    printf '%s\n' "$2" | tr ' ' '\n' | awk -F= -v name="$1" '$1 == name { last = $2 } END { print last }'
}

# measured CITY DAYS QUERIES: milliseconds a plan and sums, in $took and $sums.
measured() {
    log=$($program plan "$folder/$1" time "3=$3" --feeds 3 $zone --days "$2") || exit 1
    took=$(value us "$(printf '%s\n' "$log" | grep '^mean ')")
    plans=$(printf '%s\n' "$log" | grep '^plans ')
    sums="journeys=$(value journeys "$plans") rides=$(value rides "$plans") cost=$(value cost "$plans")"
}

# milliseconds MICROSECONDS
milliseconds() {
    awk -v us="$1" 'BEGIN { printf "%.2f", us / 1000 }'
}

# beside CITY DAYS QUERIES: the same by the yardstick, and the ratio.
beside() {
    [ -n "$YARDSTICK" ] || return
    other=$("$YARDSTICK" "$folder/$1" "$3" --from 20240506 --days "$2") || exit 1
    least=$(printf '%s\n' "$other" | awk '$1 == "plan" && $2 == "least" { print $3 }')
    line=$(printf '%s\n' "$other" | grep 'journeys=')
    theirs="journeys=$(value journeys "$line") rides=$(value rides "$line") cost=$(value cost "$line")"
    same="the same sums"
    [ "$sums" = "$theirs" ] || { same="other sums: $theirs"; failed=1; }
    awk -v us="$took" -v ms="$least" -v same="$same" 'BEGIN { printf "    yardstick %.2f ms, ratio %.2f, %s\n", ms, us / 1000 / ms, same }'
}

# with CITY FROM WORDS: the queries with words behind each.
with() {
    sed "s/\$/\&$2/" "$folder/$1/queries" >"$folder/queries"
}

for city in small large; do
    case $city in
        small) size="--side 60 --lines 150 --trips 48 --calls 30" ;;
        large) size="--side 140 --lines 800 --trips 60 --calls 40" ;;
    esac
    python3 "$bench/city.py" "$folder/$city" $size || exit 1
    for days in 1 7; do
        with "$city" "window=3600&rides=4"
        measured "$city" "$days" "$folder/queries"
        load=$(value us "$(printf '%s\n' "$log" | grep '^load ')")
        build=$(value us "$(printf '%s\n' "$log" | grep '^build ')")
        held=$(value kilobytes "$(printf '%s\n' "$log" | grep '^held ')")
        echo "$city, $days days: load $(milliseconds "$load") ms, snapshot $(milliseconds "$build") ms, $((held / 1024)) MB; a plan $(milliseconds "$took") ms, $sums"
        beside "$city" "$days" "$folder/queries"
    done
    for words in "window=900&rides=4" "window=86400&rides=4" "window=3600&rides=1" "window=3600&rides=2" "window=3600&rides=3" "window=3600&rides=8" \
        "window=3600&rides=4&walk_points=600" "window=3600&rides=4&walk_points=2000"; do
        with "$city" "$words"
        measured "$city" 1 "$folder/queries"
        echo "$city, $words: a plan $(milliseconds "$took") ms, $sums"
        beside "$city" 1 "$folder/queries"
    done
done
exit "$failed"
