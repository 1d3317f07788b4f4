# What the scripts of this folder share: the built program, and how long and how large a command runs.
root=$(cd "$(dirname "$0")/.." && pwd) || exit 1
program=$root/crates/otp_server/out/otp_server
"$root/run" check "$root/crates/otp_server/data/f" --zone Etc/UTC=UTC0 --from 20240506 --days 1 >/dev/null || exit 1
folder=$(mktemp -d) || exit 1
trap 'rm -rf "$folder"' EXIT

# The least milliseconds of three runs of a command.
least() {
    best=
    for turn in 1 2 3; do
        begin=$(date +%s%N)
        "$@" >/dev/null || exit 1
        took=$((($(date +%s%N) - begin) / 1000000))
        if [ -z "$best" ] || [ "$took" -lt "$best" ]; then best=$took; fi
    done
    echo "$((best > 0 ? best : 1))"
}

# The most kilobytes of memory that a command held.
peak() {
    "$@" >/dev/null &
    id=$!
    most=0
    while kill -0 "$id" 2>/dev/null; do
        now=$(awk '/VmHWM/ { print $2 }' "/proc/$id/status" 2>/dev/null)
        if [ -n "$now" ] && [ "$now" -gt "$most" ]; then most=$now; fi
        sleep 0.02
    done
    wait "$id" || exit 1
    echo "$most"
}

# The small files of a feed whose services run on all days.
small_files() {
    mkdir -p "$1"
    printf 'agency_timezone\nEtc/UTC\n' >"$1/agency.txt"
    printf 'route_id\nR\n' >"$1/routes.txt"
    printf 'service_id,monday,tuesday,wednesday,thursday,friday,saturday,sunday,start_date,end_date\nS,1,1,1,1,1,1,1,20240101,20241231\n' >"$1/calendar.txt"
}
