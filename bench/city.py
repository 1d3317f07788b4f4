#!/usr/bin/env python3
"""Writes a city as a GTFS folder, messages that delay some of its runs, and queries: city.py FOLDER [--side N] [--lines N] [--trips N] [--calls N] [--queries N].

SIDE times SIDE stops, 300 m apart. Each of LINES lines goes back and forth along a bent way of CALLS stops, with TRIPS trips a
direction over the day of 2024-05-06, each with dwells of its own. The messages of `few-1`, `few-2` .. delay one trip in a hundred,
those of a few lines that follow each other; those of `all-1`, `all-2` .. as many, spread over all lines. Each is a full dataset
with the same trips and other delays. `queries` has QUERIES lines (40), each the places and the time of a plan's query: from a stop
to another, or from a point, between 06:00 and 19:00 of the day.
"""
import argparse
import os
import random

MESSAGES = 3

words = argparse.ArgumentParser()
words.add_argument("folder")
words.add_argument("--side", type=int, default=140)
words.add_argument("--lines", type=int, default=1000)
words.add_argument("--trips", type=int, default=50)
words.add_argument("--calls", type=int, default=30)
words.add_argument("--queries", type=int, default=40)
words = words.parse_args()
draw = random.Random(20240506)


def clock(seconds):
    return "%02d:%02d:%02d" % (seconds // 3600, seconds // 60 % 60, seconds % 60)


def way():
    """The stops of a line."""
    row, column = draw.randrange(words.side), draw.randrange(words.side)
    down, right = draw.choice([(0, 1), (1, 0), (1, 1)])
    stops = []
    for _ in range(words.calls):
        stops.append(row * words.side + column)
        if draw.random() < 0.1:
            down, right = right, down or 1
        row, column = (row + down) % words.side, (column + right) % words.side
    return stops


def number(value):
    """A varint of the wire format of Protocol Buffers."""
    out = bytearray()
    while value > 127:
        out.append(value & 127 | 128)
        value >>= 7
    out.append(value)
    return bytes(out)


def counted(field, value):
    return number(field << 3) + number(value)


def part(field, body):
    return number(field << 3 | 2) + number(len(body)) + body


def entity(name, trip, seq, delay):
    """An entity that delays a trip's arrival at a sequence."""
    stop = part(2, counted(1, seq) + part(2, counted(1, delay)))
    descriptor = part(1, trip.encode()) + part(3, b"20240506")
    return part(2, part(1, name.encode()) + part(3, part(1, descriptor) + stop))


def write_message(name, trips):
    with open(os.path.join(words.folder, name), "wb") as file:
        file.write(part(1, part(1, b"2.0")))
        for place, trip in enumerate(trips):
            file.write(entity("%d" % place, trip, draw.randint(1, words.calls // 2), draw.randint(30, 900)))


def table(name, header):
    file = open(os.path.join(words.folder, name), "w")
    file.write(header + "\n")
    return file


os.makedirs(words.folder, exist_ok=True)
with table("agency.txt", "agency_timezone") as file:
    file.write("Etc/UTC\n")
with table("calendar.txt", "service_id,monday,tuesday,wednesday,thursday,friday,saturday,sunday,start_date,end_date") as file:
    file.write("S,1,1,1,1,1,1,1,20240101,20241231\n")
with table("stops.txt", "stop_id,stop_lat,stop_lon") as file:
    for stop in range(words.side ** 2):
        row, column = divmod(stop, words.side)
        file.write("S%d,%.6f,%.6f\n" % (stop, row * 0.0027, column * 0.0027))
with table("routes.txt", "route_id") as file:
    for line in range(words.lines):
        file.write("R%d\n" % line)
trips = []
with table("trips.txt", "route_id,service_id,trip_id") as of_trips, \
        table("stop_times.txt", "trip_id,arrival_time,departure_time,stop_id,stop_sequence") as times:
    for line in range(words.lines):
        stops = way()
        hops = [draw.randint(50, 130) for _ in stops]
        for direction in (0, 1):
            for place in range(words.trips):
                trip = "R%d-%d-%d" % (line, direction, place)
                trips.append(trip)
                of_trips.write("R%d,S,%s\n" % (line, trip))
                at = 5 * 3600 + place * 18 * 3600 // words.trips + draw.randint(0, 90)
                for seq, (stop, hop) in enumerate(zip(stops, hops), 1):
                    leaves = at + draw.randint(0, 15)
                    times.write("%s,%s,%s,S%d,%d\n" % (trip, clock(at), clock(leaves), stop, seq))
                    at = leaves + hop
            stops = stops[::-1]
late = len(trips) // 100
start = len(trips) // 3 // (2 * words.trips) * 2 * words.trips
of_few = trips[start:start + late]
of_all = [trips[place * 100 + draw.randrange(100)] for place in range(late)]
for n in range(1, MESSAGES + 1):
    write_message("few-%d" % n, of_few)
    write_message("all-%d" % n, of_all)


def place():
    """A stop, or in one case of four a point near one."""
    stop = draw.randrange(words.side ** 2)
    if draw.randrange(4):
        return "stop:S%d" % stop
    row, column = divmod(stop, words.side)
    return "at:%.6f,%.6f" % (row * 0.0027 + 0.001, column * 0.0027 + 0.001)


MIDNIGHT = 1714953600
with table("queries", "") as file:
    file.seek(0)
    for _ in range(words.queries):
        file.write("from=%s&to=%s&time=%d\n" % (place(), place(), MIDNIGHT + draw.randrange(6 * 3600, 19 * 3600)))
