#!/usr/bin/env python3
"""Measures the reading and the compiling of scenes with 16 to 128 trains, in instructions.

usage: measure_compiling.py PROGRAM

PROGRAM is the built program, as crates/rail/out/rail. The scenes have 512 sections in a row, a signal after every
eighth one, and 64 routes between them; each train runs over all of them. The script has `valgrind --tool=callgrind`
count `infra` on each scene and prints the instructions of reading and of compiling it, with all that they call. Its
status is 0 where twice the trains never take more than 2.2 times the instructions of compiling.
"""

import pathlib
import sys
import tempfile

from instructions import counted_by_function, inclusive

SECTIONS, LEGS = 512, 64


def scene(trains):
    step = SECTIONS // LEGS
    post = "setting = 10, watching = 10, approach = 100"
    names = ["West"] + ["S%d" % leg for leg in range(1, LEGS)] + ["East"]
    out = ["version = 1", "release = 20"]

    def rows(key, items):
        out.append("%s = [" % key)
        out.extend("    { %s }," % item for item in items)
        out.append("]")

    rows("section", ['name = "X%d", kind = "plain", length = 1000, speed = 90, joints = ["j%d", "j%d"]' % (x, x, x + 1) for x in range(SECTIONS)])
    rows("portal", ['name = "West", joint = "j0", ' + post, 'name = "East", joint = "j%d", ' % SECTIONS + post])
    rows("signal", ['name = "S%d", joint = "j%d", ahead = "X%d", ' % (leg, leg * step, leg * step) + post for leg in range(1, LEGS)])
    routes = []
    for leg in range(LEGS):
        path = ["j%d" % (leg * step)]
        for x in range(leg * step, (leg + 1) * step):
            path += ["X%d" % x, "j%d" % (x + 1)]
        routes.append('name = "r%d", from = "%s", to = "%s", path = [%s]' % (leg, names[leg], names[leg + 1], ", ".join('"%s"' % word for word in path)))
    rows("route", routes)
    rows("kind", ['name = "R", length = 90, speed = 90, start = 100, stop = 50'])
    way = ", ".join('"r%d"' % leg for leg in range(LEGS))
    rows("train", ['name = "T%d", kind = "R", entry = "00:02:00", routes = [%s]' % (t, way) for t in range(trains)])
    return "\n".join(out) + "\n"


def main():
    program = pathlib.Path(sys.argv[1]).resolve()
    before = None
    good = True
    with tempfile.TemporaryDirectory() as folder:
        for trains in (16, 32, 64, 128):
            file = pathlib.Path(folder) / "scene.toml"
            file.write_text(scene(trains))
            _, _, listing = counted_by_function([program, "infra", file])
            compiled = inclusive(listing, r":rail_compile::[\w:]*compile")
            read = inclusive(listing, r":rail_input::[\w:]*read_plant") - compiled
            if not compiled or read < 0:
                sys.exit("the program has no function for reading or for compiling that could be counted")
            print("%d trains of %d routes, %d bytes: read %d, compile %d" % (trains, LEGS, file.stat().st_size, read, compiled))
            good = good and (before is None or compiled <= 2.2 * before)
            before = compiled
    return 0 if good else 1


if __name__ == "__main__":
    sys.exit(main())
