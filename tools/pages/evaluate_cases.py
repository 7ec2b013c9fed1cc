#!/usr/bin/env python3
"""Evaluates the definitions of a lawful run on case folders.

usage: evaluate_cases.py [--keep FOLDER] [--jobs N] [--verdicts] CASE..

Each CASE is a folder with scene.toml, perhaps timetable.csv and commands.txt, history.txt (a run history)
and verdicts.txt, whose lines `FILE yes` or `FILE no LINE LAW` say of histories beside it whether they are
lawful to the end. The script writes a crate outside the repository for each case, in which `refl` is to prove
each answer, and has `rt check` evaluate them there, some cases at a time. It stands on the repository's
rail_rules, and the answers are yes or no; with --verdicts it stands on rail_laws_verdict, and of a no the line and
the law are evaluated too. It prints a line for each answer that the definitions do not give, and a count; its
status is 0 where there is none.
"""

import argparse
import concurrent.futures
import pathlib
import re
import shutil
import subprocess
import sys
import tempfile
import time

sys.path.insert(0, str(pathlib.Path(__file__).resolve().parent))
from rail_terms import Case, USES  # noqa: E402

REPOSITORY = pathlib.Path(__file__).resolve().parents[2]
RULES_USES = """use Rattle.rail_rules.specs.Lawful.{is_complete}
use Rattle.rail_rules.specs.RunHistories.{is_run_history}
"""
JUDGING_USES = """use Rattle.rail_laws_verdict.specs.Verdicts.{verdict}
use Rattle.rail_laws_verdict.specs.Verdicts.Verdict.{yes, no}
"""


def read(folder, name):
    path = folder / name
    return path.read_text() if path.exists() else ""


def claim_of(words, name, with_verdicts):
    """What the definitions are to say of a history, by the words of its answer: `run`, `yes`, or `no LINE LAW`."""
    if words == ["run"]:
        return "is_run_history input seats %s ≡ true" % name
    if with_verdicts:
        answer = "yes" if words == ["yes"] else "no %s %s" % tuple(words[1:])
        return "verdict input %s_lines ≡ %s" % (name, answer)
    return "is_complete input %s ≡ %s" % (name, "true" if words == ["yes"] else "false")


def module_of(folder, with_verdicts):
    """The text of a case's module, and how many answers it claims."""
    case = Case(read(folder, "scene.toml"), read(folder, "timetable.csv"), read(folder, "commands.txt"))
    parts = [USES + RULES_USES + (JUDGING_USES if with_verdicts else ""), case.definitions()]
    fronts = {}
    answers = [("history.txt", ["run"])]
    for line in read(folder, "verdicts.txt").splitlines():
        name, *words = line.split(" ")
        answers.append((name, words))
    for file, words in answers:
        lines = (folder / file).read_text().splitlines()
        key = tuple(lines)
        if key not in fronts:
            fronts[key] = "front_%d" % len(fronts)
            parts.append(case.front_definition(fronts[key], lines))
            if with_verdicts:
                parts.append(case.lines_definition(fronts[key] + "_lines", lines))
        label = file.removesuffix(".txt")
        claim = claim_of(words, fronts[key], with_verdicts)
        parts.append("pub answer_%s : %s\nanswer_%s = refl" % (label, claim, label))
    return "\n\n".join(parts) + "\n", len(answers)


def write_crate(crate, folder, with_verdicts):
    """Writes the crate of a case, and gives how many answers it claims."""
    (crate / "src").mkdir(parents=True)
    (crate / "specs").mkdir()
    (crate / "src" / "lib.rt").write_text("#![tactic(auto)]\n")
    text, claims = module_of(folder, with_verdicts)
    (crate / "specs" / "Lib.antt").write_text("pub mod Answers\n")
    (crate / "specs" / "Answers.antt").write_text(text)
    return claims


def libraries(top):
    """The lines of crates.txt for a crate and the crates of the repository that it stands on, lowest first."""
    lines = dict(re.findall(r"^(rail\w*): *(.*)$", (REPOSITORY / "crates.txt").read_text(), re.M))
    needed, left = set(), [top]
    while left:
        crate = left.pop()
        if crate in lines and crate not in needed:
            needed.add(crate)
            left += lines[crate].split()
    return {crate: lines[crate] for crate in lines if crate in needed}


def check(crate):
    """Checks the crate of a case; gives its log and its seconds."""
    begun = time.time()
    run = subprocess.run(["rt", "check", "--jobs", "1"], cwd=crate, capture_output=True, text=True)
    return crate.name, run.stdout + run.stderr, time.time() - begun


def main():
    parser = argparse.ArgumentParser(description=__doc__, formatter_class=argparse.RawDescriptionHelpFormatter)
    parser.add_argument("--keep", help="write the crates into this new folder and leave them there")
    parser.add_argument("--jobs", type=int, default=2)
    parser.add_argument("--verdicts", action="store_true", help="evaluate the line and the law of a no, too")
    parser.add_argument("cases", nargs="+", type=pathlib.Path)
    arguments = parser.parse_args()
    root = pathlib.Path(arguments.keep or tempfile.mkdtemp(prefix="rail-cases-"))
    root.mkdir(exist_ok=True)
    (root / "HANDLES").write_text("Handles allowed: none.\n")
    top = "rail_laws_verdict" if arguments.verdicts else "rail_rules"
    low = libraries(top)
    for crate in low:
        ignored = shutil.ignore_patterns("must-fail")
        shutil.copytree(REPOSITORY / "crates" / crate, root / "crates" / crate, symlinks=True, ignore=ignored)
    listed = "".join("%s: %s\n" % line for line in low.items())
    (root / "crates.txt").write_text(listed)
    subprocess.run(["rt", "check"], cwd=root / "crates" / top, check=True, capture_output=True)
    crates = {root / "crates" / ("case_" + re.sub(r"\W", "_", folder.name)): folder for folder in arguments.cases}
    claims = sum(write_crate(crate, folder, arguments.verdicts) for crate, folder in crates.items())
    stands_on = " ".join(dict.fromkeys((top, "rail_rules", "rail_base")))
    (root / "crates.txt").write_text(listed + "".join("%s: %s\n" % (crate.name, stands_on) for crate in crates))
    begun, wrong = time.time(), 0
    with concurrent.futures.ThreadPoolExecutor(arguments.jobs) as pool:
        for done in concurrent.futures.as_completed([pool.submit(check, crate) for crate in crates]):
            name, log, seconds = done.result()
            bad = re.compile(r"\berror:|not admitted|: stopped|not proved")
            errors = [line for line in log.splitlines() if bad.search(line)]
            summary = [line for line in log.splitlines() if re.match(r"crate |logic=", line)]
            refused = {m for line in errors for m in re.findall(r"`(answer_\w+)`", line)}
            told = "" if not errors else ", refused: " + (" ".join(sorted(refused)) or errors[0][:300])
            print("%s: %.0f s%s" % (name, seconds, told), flush=True)
            wrong += max(len(refused), 1) if errors else 0
            if not summary:
                print(log[-2000:])
                wrong += 1
    print("%d answers, %d refused, %.0f s" % (claims, wrong, time.time() - begun))
    if not arguments.keep:
        shutil.rmtree(root)
    return 1 if wrong else 0


if __name__ == "__main__":
    sys.exit(main())
