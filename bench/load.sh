#!/bin/sh
# Makes feeds of 100,000 and 1,000,000 rows of `stop_times.txt` (some hundred stops, trips of twelve calls), runs
# `check` on both over one day and over seven, and prints rows a second, peak memory a row, the ratio of the two
# times, and the ratio to reading the bytes alone. It fails where ten times the rows take more than twelve times
# as long.
#
# load.sh FOLDER [OTHER_PROGRAM] measures `check` over one day of that folder alone: the least processor milliseconds of
# three runs and the peak memory a row, for the built program and, in turn, for another build of it, with the ratios.
. "$(dirname "$0")/common.sh"

# The milliseconds of processor time of a command, user's and system's.
spent() {
    before=$(cut -d ' ' -f 16,17 "/proc/$$/stat")
    "$@" >/dev/null || exit 1
    after=$(cut -d ' ' -f 16,17 "/proc/$$/stat")
    echo "$before $after $(getconf CLK_TCK)" | awk '{ print int(($3 + $4 - $1 - $2) * 1000 / $5) }'
}

# measure PROGRAM FOLDER
measure() {
    least_spent=
    for turn in 1 2 3; do
        took=$(spent "$1" check "$2" --zone Etc/UTC=UTC0 --from 20240506 --days 1)
        if [ -z "$least_spent" ] || [ "$took" -lt "$least_spent" ]; then least_spent=$took; fi
    done
    held=$(peak "$1" check "$2" --zone Etc/UTC=UTC0 --from 20240506 --days 1)
}

if [ $# -gt 0 ]; then
    rows=$(($(wc -l <"$1/stop_times.txt") - 1))
    measure "$program" "$1"
    echo "rows=$rows processor_ms=$least_spent bytes_of_memory_per_row=$((held * 1024 / rows))"
    if [ $# -gt 1 ]; then
        own_spent=$least_spent own_held=$held
        measure "$2" "$1"
        echo "other: processor_ms=$least_spent bytes_of_memory_per_row=$((held * 1024 / rows))"
        echo "ratio_of_times=$((own_spent * 100 / least_spent))/100 ratio_of_memory=$((own_held * 100 / held))/100"
    fi
    exit 0
fi

# make NAME TRIPS
make() {
    small_files "$folder/$1"
    awk 'BEGIN {
        print "stop_id,stop_lat,stop_lon"
        for (stop = 0; stop < 400; stop++)
            printf "S%d,%.6f,%.6f\n", stop, int(stop / 20) * 0.02, (stop % 20) * 0.02
    }' >"$folder/$1/stops.txt"
    awk -v trips="$2" 'BEGIN {
        print "route_id,service_id,trip_id"
        for (trip = 0; trip < trips; trip++) printf "R,S,T%d\n", trip
    }' >"$folder/$1/trips.txt"
    awk -v trips="$2" 'BEGIN {
        print "trip_id,arrival_time,departure_time,stop_id,stop_sequence"
        for (trip = 0; trip < trips; trip++)
            for (call = 1; call <= 12; call++) {
                at = (trip * 37) % 80000 + call * 120
                time = sprintf("%02d:%02d:%02d", at / 3600, at / 60 % 60, at % 60)
                printf "T%d,%s,%s,S%d,%d\n", trip, time, time, (trip * 7 + call * 13) % 400, call
            }
    }' >"$folder/$1/stop_times.txt"
}

check() { "$program" check "$folder/$1" --zone Etc/UTC=UTC0 --from 20240506 --days "$2" --reach 0; }

# report NAME ROWS DAYS
report() {
    time=$(least check "$1" "$3")
    memory=$(peak "$program" check "$folder/$1" --zone Etc/UTC=UTC0 --from 20240506 --days "$3" --reach 0)
    bytes=$(least cat "$folder/$1/stop_times.txt")
    echo "rows=$2 days=$3 ms=$time rows_per_second=$(($2 * 1000 / time)) bytes_of_memory_per_row=$((memory * 1024 / $2)) times_reading=$((time / bytes))"
}

make small 8334
make large 83334
report small 100008 1
small_time=$time
report large 1000008 1
large_time=$time
report large 1000008 7
echo "ratio_of_times=$((large_time / small_time)) one_day_more_ms=$(((time - large_time) / 6))"
[ "$large_time" -le "$((12 * small_time))" ]
