"""Measures the analysis: instructions of one `find`, counted by callgrind.

usage: measure_analysis.py REPOSITORY FOLDER RT [SCENE ..]

Makes in FOLDER, which lies outside the repository, a program that reads the moves of trains and calls
`find`, has RT prove and build it, and runs it under `valgrind --tool=callgrind`. As in a run, `find` is
called after a move: it was called before at the places from which one train made it. The figure of the call
is the count of a run with both calls less that of a run with the one before alone.

First a line of 31 stations with two tracks each, where 12, 23, 46 and 93 eastbound trains stand evenly
spread over the 93 places that it has, numbered from the east and from the west, at depth 1. Then the same
line with 128 trains numbered from the east, of which 5, 10, 30 and 60 stand on it so and the others are
outside, at depth 0 and 1. Then for each SCENE (a scene file) all its trains at their first places, at
depth 0, 1 and 2.
"""

import itertools
import math
import pathlib
import shutil
import subprocess
import sys
import tomllib

from instructions import counted

LIBRARIES = ("rail_base", "rail_rules", "rail_sets", "rail_place", "rail_consequence")

# The checks of moves and places that the tests have, with their proofs.
HELPERS = ("push_rows", "push_lists", "lists", "share_one", "stands_in", "move_is_valid", "all_in", "row_is_valid",
           "row_is_small", "all_small", "all_within")

MAIN = """//! Reads rows of numbers, and looks for a list from the places that they tell, before a move and after it.
#![tactic(auto)]

mod plant;

use plant::{Plan, places_at, plan_of};
use rail_consequence::Analyst;
use rail_place::{Moves, Places};
use std::alloc::Global;
use std::test::Fail;

ghost use Rattle.rail_place.specs.PlaceStates.{IsMadeFor};
ghost use Rattle.rail_place.specs.Tables.{moves_in};
ghost use Rattle.rail_consequence.specs.AnalystStates.{IsAnalystFor};

fn numbers(alloc: Global, line: &str) -> Result<Vec<u16>, Fail> {
    let mut found = Vec::new(alloc);
    for word in line.split_whitespace() {
        found.push(word.parse::<u16>().ok().ok_or("no number")?)?;
    }
    Ok(found)
}

/// Whether a list is found from the places.
fn is_found(analyst: &mut Analyst, moves: &Moves, places: &Places, depth: u8) -> bool
    requires made { IsMadeFor moves.now places.now }
    requires own { IsAnalystFor (moves_in moves.now) analyst.old }
    ensures own { IsAnalystFor (moves_in moves.now) analyst.new }
{
    analyst.find(moves, places, depth).is_some()
}

fn answer(alloc: Global, rows: &[Vec<u16>]) -> Result<bool, Fail> {
    let Some((head, rest)) = rows.split_first() else {
        return Err(Fail::from("no rows"));
    };
    let (Some(depth), Some(calls)) = (head.get(0), head.get(1)) else {
        return Err(Fail::from("no depth"));
    };
    let depth = u8::try_from(*depth).ok().ok_or("depth")?;
    let Plan { moves, before, now } = plan_of(alloc, rest)?;
    let before = places_at(alloc, &moves, before.as_slice())?;
    let now = places_at(alloc, &moves, now.as_slice())?;
    let mut analyst = Analyst::new(alloc, &moves)?;
    let found = is_found(&mut analyst, &moves, &before, depth);
    if *calls == 1 {
        return Ok(found);
    }
    Ok(is_found(&mut analyst, &moves, &now, depth))
}

fn main(rt: HostRuntime) -> Result<(), Fail> {
    let mut rows = Vec::new(rt.alloc());
    for line in rt.lines(rt.alloc()) {
        rows.push(numbers(rt.alloc(), line?.as_str())?)?;
    }
    let found = answer(rt.alloc(), rows.as_slice())?;
    println!(rt; "{}", if found { "some" } else { "none" })?;
    Ok(())
}
"""

PLANT_HEAD = """ghost use Rattle.std.specs.Prelude.{◌≡◌, ℕ, ◌+◌, ◌<◌, ◌≤◌, ◌∷◌, [], length, get_or, IsTrue, IfOk};
ghost use Rattle.std.specs.List.{list_all, list_any};
ghost use Rattle.rail_rules.specs.Moves.{is_valid, is_valid_move};
ghost use Rattle.rail_rules.specs.Numbers.{is_in};
ghost use Rattle.rail_place.specs.PlaceStates.{IsMadeFor};
ghost use Rattle.rail_place.specs.Tables.{moves_in, lists_of};

use rail_base::limits::{ITINERARY_ROUTES, ROUTE_SECTIONS, SECTIONS, TRAINS};
use rail_base::{SectionNo, Seq, TrainNo};
use rail_place::{Moves, Places, PlacesFault, SectionLists};
use std::alloc::{AllocError, Global};
use std::test::Fail;

/// The moves of the trains, and how many each has made before the last move and now.
pub struct Plan {
    pub moves: Moves,
    pub before: Vec<u16>,
    pub now: Vec<u16>,
}

"""

PLANT_TAIL = """
/// The places with the trains there.
pub fn places_at(alloc: Global, moves: &Moves, positions: &[u16]) -> Result<Places, PlacesFault>
    ensures { IfOk result (IsMadeFor moves.now) }
{
    if positions.len() != usize::from(moves.trains()) || !all_within(moves, positions) {
        return Err(PlacesFault::OutOfMemory);
    }
    Places::new(alloc, moves, positions)
}

fn sections(alloc: Global, numbers: &[u16]) -> Result<Seq<SectionNo>, AllocError> {
    let mut sections = Vec::new(alloc);
    for number in numbers {
        sections.push(SectionNo(*number))?;
    }
    Ok(Seq::from_vec(sections))
}

/// The sections of the rows that begin with this number.
fn rows_of(alloc: Global, rows: &[Vec<u16>], kind: u16) -> Result<Vec<Seq<SectionNo>>, AllocError> {
    let mut found = Vec::new(alloc);
    for row in rows {
        if let [first, numbers @ ..] = row.as_slice()
            && *first == kind
        {
            let row = sections(alloc, numbers)?;
            found.push(row).map_err(AllocError::from)?;
        }
    }
    Ok(found)
}

/// Adds a train, whose rows begin with 1 for needed sections and with 2 for standing sets.
fn push(alloc: Global, moves: &mut Moves, rows: &[Vec<u16>]) -> Result<(), Fail> {
    let need = rows_of(alloc, rows, 1)?;
    let stand = rows_of(alloc, rows, 2)?;
    if !push_rows(alloc, moves, need, stand) {
        return Err(Fail::from("no valid moves"));
    }
    Ok(())
}

/// The trains of the rows; a row that begins with 0 begins a train, and tells how many moves it has made
/// before the last move and now.
pub fn plan_of(alloc: Global, rows: &[Vec<u16>]) -> Result<Plan, Fail> {
    let mut moves = Moves::new(alloc);
    let mut before = Vec::new(alloc);
    let mut now = Vec::new(alloc);
    let mut from = 0;
    for to in 1..rows.len() + 1 {
        if to == rows.len() || rows[to].first() == Some(&0) {
            before.push(*rows[from].get(1).ok_or("no place")?)?;
            now.push(*rows[from].get(2).ok_or("no place")?)?;
            push(alloc, &mut moves, &rows[from..to])?;
            from = to;
        }
    }
    Ok(Plan { moves, before, now })
}
"""

PLAN_INVARIANT = """use Rattle.std.proofs.Common.{◌<◌}
use Rattle.find_bench.proofs.plant.plan_of.Given as goal

abbrev pub invariant-loop-to : goal.invariant-loop-to
invariant-loop-to l = l.from < l.to
"""


def helper(source, name):
    """The text of a function of the tests, with its doc comments."""
    begin = source.index(f"fn {name}(")
    while source[:begin].rstrip("\n").rsplit("\n", 1)[-1].startswith("///"):
        begin = source[:begin].rstrip("\n").rfind("\n") + 1
    return source[begin:source.index("\n}\n", begin) + 3]


def write(path, text):
    path.parent.mkdir(parents=True, exist_ok=True)
    path.write_text(text)


def make_program(repository, folder):
    """Copies the libraries, built where they are so there, and writes the crate of the program."""
    crates = folder / "crates"
    shutil.rmtree(crates, ignore_errors=True)
    for name, part in itertools.product(LIBRARIES, ("src", "specs", "proofs", "out")):
        if (repository / "crates" / name / part).is_dir():
            shutil.copytree(repository / "crates" / name / part, crates / name / part)
    lines = (repository / "crates.txt").read_text().splitlines()
    listed = [line for line in lines if line.split(":")[0] in LIBRARIES]
    write(folder / "crates.txt", "\n".join(listed + ["find_bench: " + " ".join(reversed(LIBRARIES))]) + "\n")
    bench, tests = crates / "find_bench", repository / "crates/rail_tests_calls"
    source = (tests / "src/plants.rt").read_text()
    write(bench / "src/main.rt", MAIN)
    write(bench / "src/plant.rt", PLANT_HEAD + "\n".join(helper(source, name) for name in HELPERS) + PLANT_TAIL)
    for name in HELPERS:
        for path in sorted((tests / "proofs/plants" / name).glob("*.antt")):
            proof = path.read_text().replace("Rattle.rail_tests_calls.proofs.plants.", "Rattle.find_bench.proofs.plant.")
            write(bench / "proofs/plant" / name / path.name, proof)
    write(bench / "proofs/plant/plan_of/Invariants.antt", PLAN_INVARIANT)
    return bench


def line_plan(stations, inside, outside, from_east):
    """Eastbound trains evenly spread over the line, and outside: for each its place, its needs and standing sets."""
    number = {}

    def section(name):
        return number.setdefault(name, len(number))

    spots = [("X", 0)]
    for k in range(1, stations + 1):
        spots += [("A", k), ("B", k)] + ([("X", k)] if k < stations else [])
    chosen = [spots[(2 * i + 1) * len(spots) // (2 * inside)] for i in range(inside)]
    if from_east:
        chosen.reverse()
    chosen += [("O", k) for k in range(outside)]
    trains = []
    for letter, k in chosen:
        track = letter if letter in "AB" else "AB"[k % 2]
        need, stand, place = [["X0"]], [["X0"]], 0 if letter == "O" else 1
        for j in range(1, stations + 1):
            for row, end in (([f"P{j}", f"{track}{j}"], (track, j)), ([f"Q{j}", f"X{j}"], ("X", j))):
                need.append(row)
                stand.append(row[-1:])
                place = len(need) if end == (letter, k) else place
        trains.append((place, [[section(x) for x in row] for row in need], [[section(x) for x in row] for row in stand[:-1]]))
    return trains


def scene_plan(path):
    """All trains of a scene at their first places."""
    scene = tomllib.loads(path.read_text())
    number = {row["name"]: index for index, row in enumerate(scene["section"])}
    length = {row["name"]: row["length"] for row in scene["section"]}
    routes = {row["name"]: row["path"][1::2] for row in scene["route"]}
    kinds = {row["name"]: row["length"] for row in scene["kind"]}
    trains = []
    for train in scene["train"]:
        need = [routes[name] for name in train["routes"]]
        stand = []
        for row in need[:-1]:
            begin, total = len(row), 0
            while begin > 0 and total < kinds[train["kind"]]:
                begin -= 1
                total += length[row[begin]]
            stand.append(row[begin:])
        trains.append((1, [[number[x] for x in row] for row in need], [[number[x] for x in row] for row in stand]))
    return trains


def a_move_before(trains):
    """The places before a move of the train that has the most left of those that can have made the last one."""
    holder = {x: t for t, (place, _, stand) in enumerate(trains) if place for x in (stand + [[]])[place - 1]}

    def are_free(t, sections):
        return all(holder.get(x, t) == t for x in sections)

    left = {t: len(need) - place for t, (place, need, stand) in enumerate(trains)
            if place and are_free(t, need[place - 1]) and are_free(t, ([[]] + stand)[place - 1])}
    last = max(left, key=left.get)
    return [place - (t == last) for t, (place, _, _) in enumerate(trains)]


def rows(trains, depth, calls):
    lines = [f"{depth} {calls}"]
    for (place, need, stand), before in zip(trains, a_move_before(trains)):
        lines.append(f"0 {before} {place}")
        lines += [" ".join(map(str, [1] + row)) for row in need]
        lines += [" ".join(map(str, [2] + row)) for row in stand]
    return "\n".join(lines) + "\n"


def one_find(program, trains, depth):
    _, before = counted([program], input=rows(trains, depth, 1))
    found, both = counted([program], input=rows(trains, depth, 2))
    return both - before, found.strip()


def moves_left(trains):
    return sum(len(need) - place for place, need, _ in trains)


def main():
    repository, folder, rt, *scenes = sys.argv[1:]
    bench = make_program(pathlib.Path(repository).resolve(), pathlib.Path(folder).resolve())
    first = rows(line_plan(31, 12, 0, True), 0, 2)
    subprocess.run([rt, "run"], cwd=bench, input=first, text=True, stdout=subprocess.DEVNULL, check=True)
    program = str(bench / "out/find_bench")
    print("| Numbered from | Trains | Moves left | Instructions | A move | Exponent |\n|---|---|---|---|---|---|")
    for side in ("east", "west"):
        before = None
        for number in (12, 23, 46, 93):
            trains = line_plan(31, number, 0, side == "east")
            cost, _ = one_find(program, trains, 1)
            left = moves_left(trains)
            grown = f"{math.log(cost / before[0]) / math.log(left / before[1]):.2f}" if before else ""
            print(f"| {side} | {number} | {left:,} | {cost:,.0f} | {cost / left:,.0f} | {grown} |", flush=True)
            before = (cost, left)
    print("\n| Inside | Depth 0 | Depth 1 |\n|---|---|---|")
    for number in (5, 10, 30, 60):
        trains = line_plan(31, number, 128 - number, True)
        costs = [one_find(program, trains, depth)[0] for depth in (0, 1)]
        print(f"| {number} | {costs[0]:,.0f} | {costs[1]:,.0f} |", flush=True)
    if scenes:
        print("\n| Scene | Trains | Moves left | Depth | List | Instructions |\n|---|---|---|---|---|---|")
    for scene in scenes:
        trains = scene_plan(pathlib.Path(scene))
        for depth in (0, 1, 2):
            cost, found = one_find(program, trains, depth)
            print(f"| {pathlib.Path(scene).stem} | {len(trains)} | {moves_left(trains):,} | {depth} | {found} | {cost:,.0f} |", flush=True)


if __name__ == "__main__":
    main()
