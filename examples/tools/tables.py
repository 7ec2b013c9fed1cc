"""Reads the tables of which a scene is made, and tells what is wrong in them by its file and line."""

import csv
import sys
from pathlib import Path

COLUMNS = (
    "code km tracks speed platform line_tracks line_speed blocks",
    "name kind from to back first every count priority tracks stops",
    "kind length speed start stop",
)


def refuse(why):
    """Ends the script, and says why."""
    sys.exit(f"{Path(sys.argv[0]).name}: {why}")


def read(name, columns):
    """The rows of a table with these columns and others; what is a whole number is one."""
    if not Path(name).is_file():
        refuse(f"there is no file {name}")
    rows = csv.DictReader(Path(name).read_text().splitlines())
    for column in columns.split():
        if column not in (rows.fieldnames or []):
            refuse(f"{name} has no column `{column}`: its first line must have {columns}, with commas between them")
    return [{key: int(text) if (text or "").isdigit() else text or "" for key, text in row.items()} for row in rows]


def read_tables(stations_file, trains_file, kinds_file):
    """The rows of the three tables. A train that names what is in no table, or has a name twice, is refused."""
    stations, trains, kinds = map(read, (stations_file, trains_file, kinds_file), COLUMNS)
    codes, names = {row["code"] for row in stations}, set()
    for line, row in enumerate(trains, 2):
        at = f"{trains_file}, line {line}: train {row['name']}"
        named = [row["from"], row["to"], row["back"] or row["to"]] + [stop.split(":")[0] for stop in row["stops"].split()]
        for code in named:
            if code not in codes:
                refuse(f"{at} names the station {code}, which {stations_file} has not")
        if row["kind"] not in {kind["kind"] for kind in kinds}:
            refuse(f"{at} is of the kind {row['kind']}, which {kinds_file} has not")
        if row["name"] in names:
            refuse(f"{at} has the name of a row above it")
        if len(str(row["first"])) != 5 or str(row["first"])[2] != ":":
            refuse(f"{at} departs first at {row['first']}, which is no time as 05:35")
        names.add(row["name"])
    return stations, trains, kinds
