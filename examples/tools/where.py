#!/usr/bin/env python3
"""Tells of a history where its trains are, who waits for whom, how long they travel, and which timetable they make.

usage: where.py HISTORY PLACES at TIME         where each train is at the time
       where.py HISTORY PLACES waits [SECONDS]  who waited for so long at least (default 60), where, for what and for whom
       where.py HISTORY PLACES journeys         from when to when each train travelled, and for how long
       where.py HISTORY PLACES timetable CALLS  the times of the run as a timetable file: arrival and departure, up to full
                                                seconds, at the calls of the timetable CALLS and where a train ends

HISTORY is what `rail run` prints, PLACES what scene_from_stations.py writes: lines `train,place,station`. Place 1 is where a
train stands once it has made its first move. Printed are lines for people, or a timetable.
"""

import collections
import csv
import sys

BEFORE, BEHIND = "outside, before its entry", "outside, behind its exit"


def tenths(text):
    hours, minutes, seconds = text.split(":")
    return round(36000 * int(hours) + 600 * int(minutes) + 10 * float(seconds))


def clock(time):
    return f"{time // 36000:02}:{time // 600 % 60:02}:{time // 10 % 60:02}"


class Run:
    """What the lines of a history say, by train: the times of arrivals and departures by place, where the train was from
    when on, and its waits."""

    def __init__(self, history, stations):
        self.stations = stations
        self.arrived, self.departed = collections.defaultdict(dict), collections.defaultdict(dict)
        self.where = collections.defaultdict(list)
        self.waits, holds = [], {}
        for line in history:
            time, kind, *words = line.split()
            time = tenths(time)
            if kind == "enter":
                train, move, section = words[0], int(words[1]), words[2]
                self.departed[train].setdefault(move - 1, time)
                self.where[train].append((time, f"on {section}, {self.between(train, move)}"))
            elif kind == "arrive":
                self.arrived[words[0]][int(words[1])] = time
            elif kind == "out":
                self.where[words[0]].append((time, BEHIND))
            if kind in ("hold", "admit") and words[0] in holds:
                since, move, cause = holds.pop(words[0])
                self.waits.append((since, time - since, words[0], move, cause))
            if kind == "hold":
                holds[words[0]] = time, int(words[1]), words[2:]

    def between(self, train, move):
        """Between which stations, or in which, the train makes its move to the place."""
        known = self.stations[train]
        if move in known:
            return f"in {known[move]}" if move == min(known) else f"on the way to {known[move]}"
        return f"on the way to {known[min(place for place in known if place > move)]}"

    def standing(self, train, move):
        """Where the train stands before its move to the place."""
        known = [place for place in self.stations[train] if place < move]
        if not known:
            return "before its entry"
        place = max(known)
        station = self.stations[train][place]
        return f"in {station}" if place == move - 1 else f"behind {station}"


def where(run, time):
    for train in run.stations:
        past = [place for since, place in run.where[train] if since <= time]
        yield f"{train} {past[-1] if past else BEFORE}"


def waits(run, seconds):
    for since, long, train, move, cause in sorted(run.waits):
        if long >= 10 * seconds:
            what = " ".join(word + name for word, name in zip(("", "at ", "by "), cause))
            yield f"{clock(since)} {long / 10:7.1f} s {train} {run.standing(train, move)}: {what}"


def journeys(run):
    for train, known in run.stations.items():
        first, last = min(known), max(known)
        if last in run.arrived[train]:
            begin, end = run.departed[train][first], run.arrived[train][last]
            yield f"{train} {known[first]} {clock(begin)} {known[last]} {clock(end)} {clock(end - begin)}"


def timetable(run, calls):
    with open(calls, newline="") as file:
        dwells = {(row["train"], int(row["place"])): row["dwell"] for row in csv.DictReader(file)}
    yield "train,place,arrival,departure,dwell"
    for train, known in run.stations.items():
        for place in sorted(known):
            arrival, departure = run.arrived[train].get(place), run.departed[train].get(place)
            if arrival is not None and place == max(known):
                yield f"{train},{place},{clock(arrival + 9)},,"
            elif departure is not None and (train, place) in dwells:
                yield f"{train},{place},{clock(arrival + 9)},{clock(departure + 9)},{dwells[train, place]}"


def main():
    forms = {"at": (1, 1), "waits": (0, 1), "journeys": (0, 0), "timetable": (1, 1)}  # how many words stand behind each
    if len(sys.argv) < 4 or sys.argv[3] not in forms or not forms[sys.argv[3]][0] <= len(sys.argv) - 4 <= forms[sys.argv[3]][1]:
        sys.exit(__doc__)
    history, places, form, *rest = sys.argv[1:]
    stations = collections.defaultdict(dict)
    with open(places) as file:
        for line in file:
            train, place, station = line.strip().split(",")
            stations[train][int(place)] = station
    with open(history) as file:
        run = Run(file, stations)
    forms = {
        "at": lambda: where(run, tenths(rest[0])),
        "waits": lambda: waits(run, float(rest[0]) if rest else 60),
        "journeys": lambda: journeys(run),
        "timetable": lambda: timetable(run, rest[0]),
    }
    print(*forms[form](), sep="\n")


main()
