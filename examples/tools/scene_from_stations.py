#!/usr/bin/env python3
"""Makes a scene, its timetable and an index of its places from tables of stations, trains and train kinds.

usage: scene_from_stations.py STATIONS TRAINS KINDS OUT

STATIONS, TRAINS and KINDS are CSV files; README.md beside this file has their columns. Written are OUT.toml, the scene;
OUT.csv, a timetable with the first departures and the stops; and OUT.places, a line `train,place,station` for each place at
a station. A table that is not as it has to be is told with its file and row, and nothing is written.
"""

import sys
from pathlib import Path

from tables import read_tables, refuse

SIGHT = {"setting": 60, "watching": 50, "approach": 300}  # of each portal and signal, in tenths of a second
POINTS, TURN, BEFORE = 50, 2400, 120  # metres; tenths of a second; seconds from the entry to the first departure
OTHER = {"E": "W", "W": "E"}
tables = {name: {} for name in ("section", "portal", "signal", "board", "turn", "route", "kind", "train")}


def add(table, name, **keys):
    """Adds an item with the keys of the scene file, if none of its name is there."""
    tables[table].setdefault(name, {"name": name, **keys} if table != "turn" else keys)
    return name


def throat(station, side, line_tracks):
    """The ways out of a station on one side, by its track: the joints and sections from the track to the line, in turn."""
    code, tracks = station["code"], station["tracks"]
    ends = {track: f"{code}{track}{side}" for track in range(1, tracks + 1)}
    if line_tracks == tracks or tracks == 1:
        return {track: [end] for track, end in ends.items()}
    if line_tracks != 1:
        refuse(f"{code}: {line_tracks} tracks of the line do not meet {tracks} in the station")
    ways, toe, ladder = {}, f"{code}{side}", []
    for track in range(1, tracks):  # a ladder of points, from the line on
        points, rest = f"{code}{side}P{track}", ends[tracks] if track == tracks - 1 else f"{code}{side}{track}"
        add("section", points, kind="points", length=POINTS, speed=station["speed"], joints=[toe, ends[track], rest])
        ladder = [points, toe] + ladder
        ways[track], toe = [ends[track]] + ladder, rest
    ways[tracks] = [ends[tracks]] + ladder
    return ways


def line_between(west, east, track):
    """The joints and sections of a track of the line, in turn, from the joint at the western station to the other."""
    count, km = west["blocks"], float(east["km"]) - float(west["km"])
    length = round(1000 * km - (west["platform"] + east["platform"]) / 2) // count
    way = [west["E"][track][-1]]
    for block in range(1, count + 1):
        name = f"{west['code']}{east['code']}{track}{block}"
        way += [name, f"{name}E" if block < count else east["W"][track][-1]]
        add("section", name, kind="plain", length=length, speed=west["line_speed"], joints=way[-3::2])
    return way


def build(stations):
    """Adds the track, and to each station its ways out on both sides and the lines that begin there eastward."""
    before = stations[0]["tracks"]
    for station in stations:
        behind = station["line_tracks"] or station["tracks"]
        station["W"], station["E"], before = throat(station, "W", before), throat(station, "E", behind), behind
        for track in range(1, station["tracks"] + 1):
            name, ends = f"{station['code']}{track}", [f"{station['code']}{track}{side}" for side in "WE"]
            add("section", name, kind="plain", length=station["platform"], speed=station["speed"], joints=ends)
    for west, east in zip(stations, stations[1:]):
        west["lines"] = {track: line_between(west, east, track) for track in range(1, west["line_tracks"] + 1)}


def leave(here, there, from_track, to_track, way):
    """The way from a track of a station to one of the next, "E" or "W": the joints of its signals; all joints and sections."""
    lines = (here if way == "E" else there)["lines"]
    line = lines[min(from_track, len(lines))][:: 1 if way == "E" else -1]
    out, into = here[way][from_track], there[OTHER[way]][to_track][::-1]
    path = out + line[1:] + into[1:] + [f"{there['code']}{to_track}", f"{there['code']}{to_track}{way}"]
    stops = line[2:-1:2] + ([line[-1]] if len(into) > 1 else [])  # block signals, and a home signal before points
    for joint in [out[0]] + stops:
        add("signal", f"{joint}{way}", joint=joint, ahead=path[path.index(joint) + 1], **SIGHT)
    return [out[0]] + stops, path


def journey(stations, train):
    """The routes of a train, and its places at stations."""
    codes, chosen = [it["code"] for it in stations], {word[:-1]: int(word[-1]) for word in train["tracks"].split()}
    track = {("E", number): chosen.get(code, 1) for number, code in enumerate(codes)}
    track |= {("W", number): chosen.get(it["code"], min(2, it["tracks"])) for number, it in enumerate(stations)}
    ends = [codes.index(train[key]) for key in ("from", "to", "back") if train[key]]
    way = "E" if ends[0] < ends[1] else "W"
    at = f"{codes[ends[0]]}{track[way, ends[0]]}"
    first = {"from": add("portal", f"{at}p", joint=f"{at}{OTHER[way]}", **SIGHT), "to": f"{at}{way}{way}"}
    routes, places = [add("route", f"{at}in", **first, path=[at + OTHER[way], at, at + way])], [(1, codes[ends[0]])]
    for begin, end in zip(ends, ends[1:]):
        way, step = ("E", 1) if begin < end else ("W", -1)
        for here in range(begin, end, step):
            there = here + step
            posts, path = leave(stations[here], stations[there], track[way, here], track[way, there], way)
            goal = f"{codes[there]}{track[way, there]}"
            final = f"{goal}{way}{way}"
            if there == end and end == ends[-1]:
                final = add("portal", f"{goal}p", joint=path[-1], **SIGHT)
            elif there == end:
                final = add("board", f"{goal}b", joint=path[-1])
                add("turn", final, arriving=final, leaving=f"{goal}{OTHER[way]}{OTHER[way]}", time=TURN)
            for one, two in zip(posts, posts[1:] + [path[-1]]):
                to, part = final if two == path[-1] else f"{two}{way}", path[path.index(one):path.index(two) + 1]
                name = f"{one}-{to}" if len(one + to) < 16 else f"{one}{way}"  # at most 16 bytes; a block signal has one route
                routes.append(add("route", name, **{"from": f"{one}{way}", "to": to}, path=part))
            places.append((len(routes), codes[there]))
    return routes, places


def clock(seconds):
    return f"{seconds // 3600:02}:{seconds // 60 % 60:02}:{seconds % 60:02}"


def main():
    if len(sys.argv) != 5:
        sys.exit(__doc__)
    stations, trains, kinds = read_tables(*sys.argv[1:4])
    build(stations)
    for kind in kinds:
        add("kind", kind.pop("kind"), **kind)
    calls, index = ["train,place,arrival,departure,dwell"], []
    for train in trains:
        routes, places = journey(stations, train)
        stops = dict(word.split(":") for word in train["stops"].split())
        first = 60 * int(train["first"][:2]) + int(train["first"][3:])
        for count in range(train["count"]):
            name, start = f"{train['name']}{count + 1}", 60 * (first + count * train["every"])
            add("train", name, kind=train["kind"], entry=clock(start - BEFORE), priority=train["priority"], routes=routes)
            calls.append(f"{name},1,,{clock(start)},00:00:30")
            calls += [f"{name},{place},,,{clock(int(stops[code]))}" for place, code in places[1:-1] if code in stops]
            index += [f"{name},{place},{code}" for place, code in places]
    head = 'version = 1\nrelease = 20\ndepth = 1\npolicy = "timetable"\n'
    toml = lambda item: "".join(f"{key} = {value!r}\n" for key, value in item.items()).replace("'", '"')
    scene = head + "".join(f"\n[[{table}]]\n{toml(item)}" for table, items in tables.items() for item in items.values())
    for ending, text in {"toml": scene, "csv": "\n".join(calls) + "\n", "places": "\n".join(index) + "\n"}.items():
        Path(f"{sys.argv[4]}.{ending}").write_text(text)


main()
