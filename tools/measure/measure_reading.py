#!/usr/bin/env python3
"""Measures the reading of a large scene, in instructions.

usage: measure_reading.py [--keep FOLDER] [--scene FILE]

The script writes a crate outside the repository that stands on the repository's crates, and a scene file as
large as the limits allow (or takes FILE), and has `rt run` prove and build a program that reads the file and
then, as its first argument says, does nothing more, parses it as TOML, or reads the scene. It runs each under
`valgrind --tool=callgrind` and prints the instructions of the parse and of the reading, less those of reading
the file, and how many times the parse the reading takes. Its status is 0 where that is at most 3.
"""

import argparse
import pathlib
import re
import shutil
import subprocess
import sys
import tempfile

from instructions import counted

REPOSITORY = pathlib.Path(__file__).resolve().parents[2]
USED = "rail_scene rail_routes rail_track rail_base toml indexmap"


def lines():
    """The lines of crates.txt for the crates that reading stands on, and for the measuring program."""
    stands_on = dict(re.findall(r"^(rail_\w+): *(.*)$", (REPOSITORY / "crates.txt").read_text(), re.M))
    needed, left = [], USED.split()
    while left:
        crate = left.pop()
        if crate in stands_on and crate not in needed:
            needed.append(crate)
            left += stands_on[crate].split()
    return {crate: stands_on[crate] for crate in needed} | {"measure": USED}


PROGRAM = '''//! Reads the file of its second argument and does what its first one says.
#![tactic(auto)]

use rail_base::Fault;
use rail_scene::read_scene;
use std::alloc::Global;
use std::rt::HostRuntime;
use std::{env, fs, io};

fn parsed(alloc: Global, bytes: &[u8]) -> &'static str {
    match toml::table_from_slice(alloc, bytes) {
        Ok(table) => {
            drop(table);
            "parsed"
        }
        Err(_) => "no TOML",
    }
}

fn read(alloc: Global, bytes: &[u8]) -> &'static str {
    match read_scene(alloc, bytes) {
        Ok(scene) => {
            drop(scene);
            "read"
        }
        Err(Fault::Refused(_)) => "refused",
        Err(Fault::OutOfMemory) => "out of memory",
    }
}

fn main(rt: HostRuntime) -> io::Result<()> {
    let mut words = env::args(&rt)?.skip(1);
    let done = match (words.next(), words.next()) {
        (Some(verb), Some(path)) => {
            let bytes = fs::read(&rt, path.as_str())?;
            match verb.as_str() {
                "parse" => parsed(rt.alloc(), bytes.as_slice()),
                "read" => read(rt.alloc(), bytes.as_slice()),
                _ => "nothing",
            }
        }
        _ => "usage",
    };
    println!(rt; "{done}")?;
    Ok(())
}
'''


def item(part, **values):
    lines = ["[[%s]]" % part]
    for key, value in values.items():
        if isinstance(value, list):
            value = "[" + ", ".join('"%s"' % name for name in value) + "]"
        elif isinstance(value, str):
            value = '"%s"' % value
        lines.append("%s = %s" % (key, value))
    return "\n".join(lines) + "\n"


def large_scene():
    """512 sections in a row, 512 posts, 512 turns, 1,024 routes of 32 sections, 128 kinds and 128 trains."""
    section = ["sec_%03d" % number for number in range(512)]
    joint = ["jt_%03d" % number for number in range(513)]
    signal = ["sgnl_%03d" % number for number in range(512)]
    times = {"setting": 10, "watching": 10, "approach": 100}
    out = ["version = 1\nrelease = 20\n"]
    for k in range(512):
        out.append(item("section", name=section[k], kind="plain", length=1000, speed=90, joints=[joint[k], joint[k + 1]]))
    out.append(item("portal", name="West", joint=joint[0], **times))
    out.append(item("portal", name="East", joint=joint[512], **times))
    for k in range(1, 511):
        out.append(item("signal", name=signal[k], joint=joint[k], ahead=section[k], **times))
    for k in range(512):
        out.append(item("turn", arriving=signal[1 + k % 500], leaving=signal[2 + k % 500 + k // 500], time=0))
    for number in range(1024):
        k = 1 + number % 478
        path = [joint[k]]
        for step in range(32):
            path += [section[k + step], joint[k + step + 1]]
        out.append(item("route", name="route_%04d" % number, **{"from": signal[k]}, to=signal[k + 32], path=path))
    for number in range(128):
        out.append(item("kind", name="kind_%03d" % number, length=90, speed=90, start=100, stop=50))
    for number in range(128):
        out.append(item("train", name="train_%03d" % number, kind="kind_%03d" % number, entry="00:02:00", routes=["route_%04d" % (number * 7 + place) for place in range(64)]))
    return "".join(out)


def instructions(program, verb, scene):
    """The instructions of a run, which is to print what was done."""
    printed, count = counted([program, verb, scene])
    want = {"nothing": "nothing", "parse": "parsed", "read": "read"}[verb]
    if printed.strip() != want:
        sys.exit("%s: the program said %r" % (verb, printed))
    return count


def main():
    parser = argparse.ArgumentParser(description=__doc__, formatter_class=argparse.RawDescriptionHelpFormatter)
    parser.add_argument("--keep", help="write the crate into this new folder and leave it there")
    parser.add_argument("--scene", type=pathlib.Path, help="read this file in place of the large scene")
    arguments = parser.parse_args()
    root = pathlib.Path(arguments.keep or tempfile.mkdtemp(prefix="rail-reading-")).resolve()
    root.mkdir(exist_ok=True)
    low = lines()
    (root / "HANDLES").write_text("Handles allowed: none.\n")
    (root / "crates.txt").write_text("".join("%s: %s\n" % line for line in low.items()))
    for crate in list(low)[:-1]:
        shutil.copytree(REPOSITORY / "crates" / crate, root / "crates" / crate, ignore=shutil.ignore_patterns("out", "must-fail"))
    crate = root / "crates" / "measure"
    (crate / "src").mkdir(parents=True)
    (crate / "src" / "main.rt").write_text(PROGRAM)
    scene = root / "scene.toml"
    scene.write_text(arguments.scene.read_text() if arguments.scene else large_scene())
    built = subprocess.run(["rt", "run", "--", "nothing", scene], cwd=crate, capture_output=True, text=True)
    programs = [path for path in (crate / "out").rglob("measure") if path.is_file()]
    if built.returncode != 0 or not programs:
        sys.exit(built.stdout[-3000:] + built.stderr[-3000:])
    counts = {verb: instructions(programs[0], verb, scene) for verb in ("nothing", "parse", "read")}
    parse, read = counts["parse"] - counts["nothing"], counts["read"] - counts["nothing"]
    print("%d bytes: parse %d instructions, read %d instructions, %.2f times" % (scene.stat().st_size, parse, read, read / parse))
    if not arguments.keep:
        shutil.rmtree(root)
    return 0 if read <= 3 * parse else 1


if __name__ == "__main__":
    sys.exit(main())
