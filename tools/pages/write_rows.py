#!/usr/bin/env python3
"""Writes the worked rows of crates/rail_worked from examples/.

usage: write_rows.py REPOSITORY

Each row is a scene NAME.toml with its history NAME.history and perhaps commands NAME.cmd. For each the script
writes a module of definitions into crates/rail_worked/specs, a function whose contract says of them what holds,
into crates/rail_worked/src, and the answers to its clauses. Of histories of these scenes that break a rule it writes
the same, into one module of the program. It writes no claim that it has computed: the check
evaluates them all. What it writes is laid out as `rt tidy` would: a row imports what it needs.
"""

import pathlib
import re
import sys

sys.path.insert(0, str(pathlib.Path(__file__).resolve().parent))
from rail_terms import Case, USES, time_of  # noqa: E402

# name, function, of what it is the row, what it shows, whether it is whole, whether every train leaves,
# and the lines (from 1) to change in time, to drop and to double
ROWS = [
    ("one-train", "one_train_over_three_sections", "one train that runs alone",
     "One train over three sections.", True, True, (5, 9, 3)),
    ("loop", "two_trains_pass_at_a_loop", "two trains that pass at a loop",
     "Two trains pass at a loop.", True, True, (13, 20, 30)),
    ("deadlock-avoided", "a_deadlock_avoided", "a deadlock that is avoided",
     "A train is held where its admission would lead into a deadlock.", True, True, (30, 4, 12)),
    ("turn", "a_turn_that_waits_for_its_own_tail", "a train that turns",
     "A train that turns waits until its own tail has cleared the points.", True, True, (14, 7, 8)),
    ("closed-section", "a_closed_section_ends_the_run", "a closed section that keeps a train inside",
     "A closed section leaves a train inside at the end.", True, False, (12, 11, 6)),
    ("stop-and-go", "stop_then_go_at_one_instant", "a stop and then a go at one instant",
     "A stop and then a go at one instant hold nothing.", True, True, (16, 9, 11)),
    ("go-and-stop", "go_then_stop_at_one_instant", "a go and then a stop at one instant",
     "A go and then a stop at one instant hold the train.", True, False, (12, 10, 4)),
    ("overlap", "an_overlap_taken_over", "an overlap that the next move of its train takes over",
     "A train takes over a section of its overlap, and another one waits for it.", True, True, (14, 17, 13)),
    ("overlap-kept", "an_overlap_until_its_timer_runs_out", "an overlap that is held until its timer runs out",
     "The overlap of a train that goes no further is held until its timer runs out.", True, False, (13, 12, 8)),
    ("cancelled", "a_cancelled_train", "a train that is cancelled in time",
     "A train that is cancelled before its first admission has no other line.", True, False, (1, 1, 1)),
    ("cancelled-too-late", "a_train_cancelled_too_late", "a train that is cancelled too late",
     "A cancel after an admission changes nothing.", True, True, (6, 5, 6)),
    ("following", "a_train_follows_another", "a train that follows another one",
     "A train follows another one into each section as soon as that is free.", True, True, (17, 11, 22)),
    ("policies", "policies_exchanged_and_retired", "policies that are exchanged and retired",
     "A policy is exchanged, and one that is in force is not retired.", False, False, None),
]

# name, row of which it has the input, function, which rule it breaks, and its first wrong line (from 1)
REFUTED = [
    ("freed-by-the-head", "one-train", "a_section_is_not_free_as_the_head_leaves_it",
     "A section is given free once the tail has cleared it and the release time has passed, and not as the head leaves it.", 4),
    ("no-new-round", "following", "a_release_begins_a_new_round",
     "Once a section is given free for which a train waits, the trains that wait are looked at again before any other event.", 11),
    ("cause-told-late", "deadlock-avoided", "a_new_cause_is_told_at_once",
     "Where a section is taken before the one for which a train is held, the train is told its new cause at once.", 16),
    ("ready-though-cancelled", "cancelled", "a_cancelled_train_is_never_ready",
     "A train that is cancelled before its first admission is never ready.", 2),
]


def camel(name):
    return "".join(part.capitalize() for part in name.split("-"))


def snake(module):
    return "".join("_" + letter.lower() if letter.isupper() else letter for letter in module).lstrip("_")


def later(line):
    """The line a tenth of a second later."""
    text, rest = line.split(" ", 1)
    time = time_of(text) + 1
    seconds = time // 10
    return "%02d:%02d:%02d.%d %s" % (seconds // 3600, seconds // 60 % 60, seconds % 60, time % 10, rest)


def needs(body, name):
    """Whether the text has the name, as that of a thing and not of a field or a clause."""
    if not name[0].isascii() or not name[0].isalpha():
        return name.strip("◌") in body
    return re.search(r"(?<![\w.])(?<!ensures )%s(?![\w-])(?! =)" % re.escape(name), body) is not None


def tidied(text):
    """The text of definitions or of a proof without the imports that it does not need."""
    lines = text.split("\n")
    is_import = [re.match(r"(ghost )?use ", line) is not None for line in lines]
    body = "\n".join(line for line, it in zip(lines, is_import) if not it)
    kept = []
    for number, (line, it) in enumerate(zip(lines, is_import)):
        names = re.match(r"(.*\.\{)(.*)(\};?)$", line) if it else None
        if names:
            needed = [name for name in names[2].split(", ") if needs(body, name)]
            kept += [names[1] + ", ".join(needed) + names[3]] if needed else []
        elif it and " as " in line:
            kept += [line] if re.search(r"(?<![\w.])%s\." % line.rstrip(";").split(" as ")[1], body) else []
        elif line or not (kept and re.match(r"(ghost )?use ", kept[-1]) and number + 1 < len(lines) and is_import[number + 1]):
            kept.append(line)
    return "\n".join(kept)


def write(path, text):
    path.parent.mkdir(parents=True, exist_ok=True)
    path.write_text(tidied(text) if path.suffix == ".antt" else text)


def write_row(repository, name, function, of, says, whole, leaves, places):
    crate = repository / "crates" / "rail_worked"
    path = repository / "examples" / name
    commands = path.with_suffix(".cmd")
    case = Case(path.with_suffix(".toml").read_text(), "", commands.read_text() if commands.exists() else "")
    lines = path.with_suffix(".history").read_text().splitlines()
    printed = "abbrev pub printed : List ℕ\nprinted = lines (%s)" % " ∷ ".join(['codes "%s"' % line for line in lines] + ["[]"])
    parts = ["-- %s" % says, USES.replace("{◌≡◌,", "{ℕ, codes,"), "use Rattle.rail_worked.specs.Lines.{lines}", "", case.definitions(), "",
             "-- the printed history, its lines the newest first", case.front_definition("front", lines), "", "-- its text", printed]
    variants = {}
    if places:
        change, drop, double = (place - 1 for place in places)
        variants = {
            "changed": ("with the time of one line a tenth later", lines[:change] + [later(lines[change])] + lines[change + 1:]),
            "dropped": ("without one line", lines[:drop] + lines[drop + 1:]),
            "doubled": ("with one line twice", lines[:double + 1] + lines[double:]),
        }
    for variant, (words, changed) in variants.items():
        parts += ["", "-- the history %s" % words, case.front_definition(variant, changed)]
    if name == "loop":
        parts += ["", "-- the history with a fresh list on its third line", case.front_definition("with_fresh", lines[:2] + ["00:01:48.0 admit A 1 fresh A"] + lines[3:])]
    module = camel(name)
    write(crate / "specs" / (module + ".antt"), "\n".join(parts) + "\n")
    clauses = []
    over = name.startswith("overlap")
    if over:
        clauses.append(("accepted", "IsTrue (is_accepted_input input)"))
    if whole:
        clauses.append(("lawful", "IsTrue (is_complete input front)"))
        clauses.append(("run", "IsTrue (is_run_history input seats front)"))
        overtaken = " + taken_over plant front" if over else ""
        clauses.append(("bounded", "lines_beside_holds front%s %s bound plant (length input.commands)" % (overtaken, "≡" if leaves else "≤")))
    else:
        clauses.append(("run", "IsTrue (is_run input seats front)"))
    clauses.append(("text", "text plant front ≡ printed"))
    for variant in variants:
        clauses.append((variant, "is_complete input %s ≡ false" % variant))
    if name == "loop":
        clauses.append(("fresh_lawful", "IsTrue (is_complete input with_fresh)"))
        clauses.append(("fresh_no_run", "is_run_history input seats with_fresh ≡ false"))
    names = ["plant", "seats", "input", "front", "printed"] + list(variants) + (["with_fresh"] if name == "loop" else [])
    source = ["//! The row of %s." % of, "",
              "ghost use Rattle.std.specs.Prelude.{◌≡◌, ◌≤◌, %sIsTrue, false, length};" % ("◌+◌, " if over else ""),
              *(["ghost use Rattle.rail_rules.specs.Accepted.{is_accepted_input};"] if over else []),
              "ghost use Rattle.rail_rules.specs.Fronts.{lines_beside_holds};",
              *(["ghost use Rattle.rail_rules.specs.LineCounts.{taken_over};"] if over else []),
              "ghost use Rattle.rail_rules.specs.Lawful.{is_complete};",
              "ghost use Rattle.rail_rules.specs.Plant.{bound};",
              "ghost use Rattle.rail_rules.specs.RunHistories.{is_run, is_run_history};",
              "ghost use Rattle.rail_rules.specs.Texts.{text};",
              "ghost use Rattle.rail_worked.specs.%s.{%s};" % (module, ", ".join(names)), "",
              "/// %s" % says, "pub fn %s()" % function]
    source += ["    ensures %s { %s }" % clause for clause in clauses] + ["{}", ""]
    rust = name.replace("-", "_") + "_row"
    write(crate / "src" / (rust + ".rt"), "\n".join(source))
    answers = ["use Rattle.std.proofs.Common.{refl, lit≤}", "use Rattle.std.specs.Fmt.{digits}", "use Rattle.rail_worked.proofs.%s.%s.Goals as goal" % (rust, function), ""]
    for clause, statement in clauses:
        answers += ["pub returns-clause-%s : goal.returns-clause-%s%s" % (clause, clause, "\nunfolding digits" if clause == "text" else ""),
                    "returns-clause-%s c = %s" % (clause, "lit≤ tt" if "≤" in statement else "refl"), ""]
    write(crate / "proofs" / rust / function / "Answers.antt", "\n".join(answers))
    return module, rust, function


def write_refuted(repository, rows):
    crate = repository / "crates" / "rail_worked"
    source = ["//! Histories that break a rule. Each is what a plain mistake of a program would print: up to its first wrong line it is",
              "//! lawful, that line may not follow, and so the whole is no history.", "",
              "ghost use Rattle.std.specs.Prelude.{◌≡◌, IsTrue, false};",
              "ghost use Rattle.rail_rules.specs.Lawful.{is_complete, is_lawful, may_follow};"]
    modules = sorted({camel(row) for _, row, _, _, _ in rows} | {camel(name) for name, _, _, _, _ in rows})
    source += ["ghost use Rattle.rail_worked.specs.%s as %s;" % (module, snake(module)) for module in modules]
    for name, row, function, says, wrong in rows:
        path = repository / "examples" / row
        commands = path.with_suffix(".cmd")
        case = Case(path.with_suffix(".toml").read_text(), "", commands.read_text() if commands.exists() else "")
        lines = (repository / "examples" / name).with_suffix(".history").read_text().splitlines()
        before, line, behind = lines[:wrong - 1], lines[wrong - 1], lines[wrong:]
        whole = "".join("    %s ∷\n" % case.line_term(it) for it in reversed(behind)) + "    wrong ∷ before"
        parts = ["-- %s" % says, USES,
                 "-- the lines before the first wrong one, the newest first", case.front_definition("before", before), "",
                 "-- the first wrong line", "abbrev pub wrong : Line\nwrong = %s" % case.line_term(line), "",
                 "-- the whole history", "abbrev pub front : Front\nfront =\n%s" % whole]
        write(crate / "specs" / (camel(name) + ".antt"), "\n".join(parts) + "\n")
        of, here = snake(camel(row)), snake(camel(name))
        clauses = [("lawful", "IsTrue (is_lawful %s.input %s.before)" % (of, here)),
                   ("wrong", "may_follow %s.input %s.before %s.wrong ≡ false" % (of, here, here)),
                   ("whole", "is_complete %s.input %s.front ≡ false" % (of, here))]
        source += ["", "/// %s" % says, "pub fn %s()" % function]
        source += ["    ensures %s { %s }" % clause for clause in clauses] + ["{}"]
        answers = ["use Rattle.std.proofs.Common.{refl}", "use Rattle.rail_worked.proofs.refuted_rows.%s.Goals as goal" % function, ""]
        for clause, _ in clauses:
            answers += ["pub returns-clause-%s : goal.returns-clause-%s" % (clause, clause), "returns-clause-%s c = refl" % clause, ""]
        write(crate / "proofs" / "refuted_rows" / function / "Answers.antt", "\n".join(answers))
    write(crate / "src" / "refuted_rows.rt", "\n".join(source) + "\n")


def main():
    if len(sys.argv) != 2:
        sys.exit(__doc__)
    repository = pathlib.Path(sys.argv[1])
    for row in ROWS:
        module, rust, function = write_row(repository, *row)
        print(module, rust, function)
    write_refuted(repository, REFUTED)
    for name, _, function, _, _ in REFUTED:
        print(camel(name), "refuted_rows", function)


if __name__ == "__main__":
    main()
