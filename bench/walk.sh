#!/bin/sh
# Makes feeds of 1,000, 4,000 and 16,000 stops at the density of a city (300 m apart), without trips, runs `check`
# with a reach of 1 km, and prints the growth and the nanoseconds a pair of stops.
. "$(dirname "$0")/common.sh"

# report STOPS SIDE
report() {
    small_files "$folder/$1"
    printf 'route_id,service_id,trip_id\n' >"$folder/$1/trips.txt"
    printf 'trip_id,arrival_time,departure_time,stop_id,stop_sequence\n' >"$folder/$1/stop_times.txt"
    awk -v stops="$1" -v side="$2" 'BEGIN {
        print "stop_id,stop_lat,stop_lon"
        for (stop = 0; stop < stops; stop++)
            printf "S%d,%.6f,%.6f\n", stop, int(stop / side) * 0.002698, (stop % side) * 0.002698
    }' >"$folder/$1/stops.txt"
    time=$(least "$program" check "$folder/$1" --zone Etc/UTC=UTC0 --from 20240506 --days 1)
    echo "stops=$1 ms=$time ns_per_pair=$((time * 1000000 / ($1 * $1)))"
}

report 1000 32
report 4000 64
middle=$time
report 16000 127
echo "growth_from_4000_to_16000=$((time / middle))"
