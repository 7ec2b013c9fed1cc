#!/usr/bin/env python3
"""Measures the compression: instructions of one `compress`, counted by callgrind.

usage: measure_capacity.py REPOSITORY FOLDER RT

Makes in FOLDER, which lies outside the repository, a program that makes up intervals, tests that they are
without conflict, and compresses them so often as it is told; has RT prove and build it; and runs it under
`valgrind --tool=callgrind`. The figure of one call is the count of a run with two calls less that of a run
with one.

125 trains run over 8, 80 and 240 sections, every other one the other way, so that each two of different
directions pass each other; all sections are on the line. Then 20 trains run over 500 sections.
"""

import math
import pathlib
import shutil
import subprocess
import sys

from instructions import counted

LIBRARIES = ("rail_base", "rail_capacity")
CALLS = ((125, 8), (125, 80), (125, 240), (20, 500))

MAIN = """//! Compresses made-up intervals, so often as it is told.
#![tactic(auto)]

ghost use Rattle.std.specs.Prelude.{◌≡◌, ◌<◌, ◌&&◌, map, unwrap_or, IsTrue};
ghost use Rattle.std.specs.List.{list_all};
ghost use Rattle.rail_capacity.specs.BlockingTimes.{are_conflict_free, are_disjoint, block_of, is_in_range};

use rail_base::{Interval, Parts, SectionNo, Time, TrainNo};
use rail_capacity::{Window, compress};
use std::alloc::{AllocError, Global};
use std::test::Fail;

const NO_PARTS: Parts = Parts {
    setting: None,
    watching: None,
    approach: None,
    waiting: None,
    earlier: None,
    running: None,
    standing: None,
    clearing: None,
    release: None,
};

/// The interval with this number, train by train. Every other train runs the other way over the sections, and each two
/// of different directions pass each other.
fn interval(number: u32, sections: u16) -> Interval
    requires { 0 < sections }
{
    let train = number / u32::from(sections) % 65_536;
    let section = number % u32::from(sections);
    let way = if train % 2 == 0 { section } else { u32::from(sections) - 1 - section };
    let begin = u64::from(train) * 100 + u64::from(way) * 200;
    Interval {
        section: SectionNo(section as u16),
        train: TrainNo(train as u16),
        place: 1,
        begin: Time(begin),
        end: Some(Time(begin + 90)),
        parts: NO_PARTS,
    }
}

fn intervals(alloc: Global, trains: u16, sections: u16) -> Result<Vec<Interval>, AllocError>
    requires { 0 < sections }
{
    let count = u32::from(trains) * u32::from(sections);
    (0..count).map(|number| interval(number, sections)).collect(alloc)
}

fn in_range(interval: &Interval) -> bool
    ensures { result ≡ is_in_range (block_of interval.now) }
{
    let end = interval.end.unwrap_or(interval.begin);
    interval.begin.0 < end.0 && end.0 < 1 << 50
}

fn disjoint(a: &Interval, b: &Interval) -> bool
    ensures { result ≡ are_disjoint (block_of a.now) (block_of b.now) }
{
    let (a_end, b_end) = (a.end.unwrap_or(a.begin), b.end.unwrap_or(b.begin));
    a.section != b.section || a_end.0 <= b.begin.0 || b_end.0 <= a.begin.0
}

fn disjoint_from(interval: &Interval, others: &[Interval]) -> bool
    ensures { result ≡ list_all (λ other. are_disjoint (block_of interval.now) (block_of other)) others.now }
{
    others.iter().all(|other| disjoint(interval, other))
}

fn all_three(a: bool, b: bool, c: bool) -> bool
    ensures { result ≡ (a && b && c) }
{
    a && b && c
}

fn conflict_free(intervals: &[Interval]) -> bool
    ensures { result ≡ are_conflict_free (map block_of intervals.now) }
{
    let Some((first, rest)) = intervals.split_first() else {
        return true;
    };
    all_three(in_range(first), disjoint_from(first, rest), conflict_free(rest))
}

fn line_of(alloc: Global, sections: u16) -> Result<Vec<SectionNo>, AllocError> {
    (0..sections).map(|section| SectionNo(section)).collect(alloc)
}

fn rate(alloc: Global, intervals: &[Interval], line: &[SectionNo]) -> Result<u64, Fail>
    requires { IsTrue (are_conflict_free (map block_of intervals.now)) }
{
    let window = Window {
        from: Time(0),
        to: Time(1_000_000),
    };
    let Ok(found) = compress(alloc, intervals, line, window) else {
        return Err(Fail::from("no compression"));
    };
    Ok(found.rate)
}

fn look(alloc: Global, intervals: &[Interval], line: &[SectionNo], often: u16) -> Result<u64, Fail>
    requires { IsTrue (are_conflict_free (map block_of intervals.now)) }
{
    let mut found = 0;
    for _ in 0..often {
        found = rate(alloc, intervals, line)?;
    }
    Ok(found)
}

fn answer(alloc: Global, trains: u16, sections: u16, often: u16) -> Result<u64, Fail> {
    if sections == 0 {
        return Err(Fail::from("no sections"));
    }
    let all = intervals(alloc, trains, sections)?;
    let line = line_of(alloc, sections)?;
    if !conflict_free(&all) {
        return Err(Fail::from("no intervals of a run"));
    }
    look(alloc, &all, &line, often)
}

fn number(word: Option<&str>) -> Result<u16, Fail> {
    Ok(word.ok_or("no word")?.parse::<u16>().ok().ok_or("no number")?)
}

fn main(rt: HostRuntime) -> Result<(), Fail> {
    let mut told = String::new(rt.alloc());
    let _ = rt.read_line(&mut told)?;
    let mut words = told.as_str().split_whitespace();
    let trains = number(words.next())?;
    let sections = number(words.next())?;
    let often = number(words.next())?;
    let found = answer(rt.alloc(), trains, sections, often)?;
    println!(rt; "{found}")?;
    Ok(())
}
"""

MEASURE = """use Rattle.std.proofs.Common.{length}
use Rattle.compress_bench.proofs.+conflict_free.Given as goal

abbrev pub decreases-conflict_free : goal.decreases-conflict_free
decreases-conflict_free l = length l.intervals.now
"""
ANSWERS = """use Rattle.std.proofs.Common.{◌≡◌, ◌&&◌, Bool, List, ◌∷◌, map, sym, ap, ◌∙◌}
use Rattle.std.specs.List.{list_all}
use Rattle.std.proofs.lemmas.List.Folds.{list_all-map}
use Rattle.rail_base.specs.declared.intervals.Interval.{Interval}
use Rattle.rail_capacity.specs.BlockingTimes.{are_conflict_free, are_disjoint, block_of, is_in_range}
use Rattle.compress_bench.proofs.+conflict_free.Goals as goal

with_first :
    (x : Interval) (xs : List Interval)
    → (is_in_range (block_of x) && list_all (λ other. are_disjoint (block_of x) (block_of other)) xs && are_conflict_free (map block_of xs))
    ≡ are_conflict_free (map block_of (x ∷ xs))
with_first x xs =
    ap (λ (b : Bool). is_in_range (block_of x) && b && are_conflict_free (map block_of xs)) (sym (list_all-map (are_disjoint (block_of x)) block_of xs))

three : (a b d x y z : Bool) → a ≡ x → b ≡ y → d ≡ z → (a && b && d) ≡ (x && y && z)
three a b d x y z p q r = cc

pub returns : goal.returns
returns t c =
    c.all_three.ensures ∙ three _ _ _ _ _ _ c.in_range.ensures c.disjoint_from.ensures c.conflict_free.ensures
    ∙ with_first c.in-Some.first.now c.in-Some.rest.now
    ∙ ap (λ (xs : List Interval). are_conflict_free (map block_of xs)) (sym c.in-Some.ensures.cases.0)
"""


def make_program(repository, folder):
    """Copies the libraries, and writes the crate of the program."""
    crates = folder / "crates"
    for name in LIBRARIES:
        shutil.rmtree(crates / name, ignore_errors=True)
        shutil.copytree(repository / "crates" / name, crates / name, ignore=shutil.ignore_patterns("must-fail"))
    lines = (repository / "crates.txt").read_text().splitlines()
    listed = [line for line in lines if line.split(":")[0] in LIBRARIES]
    (folder / "crates.txt").write_text("\n".join([*listed, "compress_bench: rail_capacity rail_base"]) + "\n")
    bench = crates / "compress_bench"
    (bench / "src").mkdir(parents=True, exist_ok=True)
    (bench / "src/main.rt").write_text(MAIN)
    measure = bench / "proofs/+conflict_free/Invariants.antt"
    measure.parent.mkdir(parents=True, exist_ok=True)
    measure.write_text(MEASURE)
    (measure.parent / "Answers.antt").write_text(ANSWERS)
    return bench


def count(program, trains, sections, often):
    return counted([program], input=f"{trains} {sections} {often}\n")[1]


def main():
    repository, folder, rt = sys.argv[1:]
    bench = make_program(pathlib.Path(repository).resolve(), pathlib.Path(folder).resolve())
    subprocess.run([rt, "run", "--jobs", "1"], cwd=bench, input="5 8 1\n", text=True, stdout=subprocess.DEVNULL, check=True)
    program = str(bench / "out/compress_bench")
    print("| Trains | Sections | Intervals | Instructions | An interval | Exponent |\n|---|---|---|---|---|---|")
    before = None
    for trains, sections in CALLS:
        cost = count(program, trains, sections, 2) - count(program, trains, sections, 1)
        number = trains * sections
        grown = f"{math.log(cost / before[0]) / math.log(number / before[1]):.2f}" if before and number > before[1] else ""
        print(f"| {trains} | {sections} | {number:,} | {cost:,} | {cost / number:,.0f} | {grown} |", flush=True)
        before = (cost, number)


if __name__ == "__main__":
    main()
