#!/bin/sh
# Compares the messages of rt_reader's tests with the bytes that a real encoder writes for the same values.
# It needs protoc (Debian: protobuf-compiler) and is skipped where that is missing.
cd "$(dirname "$0")/.." || exit 1
if ! command -v protoc > /dev/null; then
    echo "skipped: protoc is not installed"
    exit 0
fi
tests=crates/rt_reader/src/tests.rt
failed=0

# The bytes of a constant of the tests, as hexadecimal digits.
bytes_of() {
    awk -v start="^const $1: " '$0 ~ start { on = 1 } on { printf "%s", $0 } on && /\];/ { exit }' "$tests" |
        sed 's/.*= \[//; s/\].*//; s/0x//g' | tr -d ', ' | tr A-F a-f
}

# compare NAME TEXT: the header and the entity of this name are the encoder's bytes of the text.
compare() {
    wanted="$(bytes_of HEADER)$(bytes_of "$1")"
    found=$(printf '%s' "header { gtfs_realtime_version: '2.0' } entity { id: '1' trip_update { $2 } }" |
        protoc -I tools --encode=messages.FeedMessage tools/messages.proto | od -An -v -tx1 | tr -d ' \n')
    if [ "$wanted" = "$found" ]; then
        echo "same: $1"
    else
        echo "different: $1: tests $wanted, encoder $found"
        failed=1
    fi
}

trip="trip_id: 'T1' start_date: '20240506'"
compare LATE "trip { $trip } stop_time_update { stop_sequence: 2 arrival { delay: 61 } }"
compare LATER "trip { $trip } stop_time_update { stop_sequence: 2 arrival { delay: 62 } }"
compare CANCELED "trip { $trip schedule_relationship: 3 }"
compare SKIPPED "trip { $trip } stop_time_update { stop_sequence: 2 schedule_relationship: 1 }"
compare EARLY "trip { $trip } stop_time_update { stop_sequence: 2 arrival { delay: -660 } }"
exit $failed
