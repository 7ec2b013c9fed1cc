#!/usr/bin/env python3
"""Hands the program files that are cut, changed, too large or pipes, and many of them at once.

usage: attack.py PROGRAM cuts|mutations|histories|sizes|pipes|terminal|crowd [COUNT] [SEED] [OTHER ..]

The files are those of the commands in examples/README.md. Each answer must be one that docs/FORMATS.md allows: an exit status
with its status text, nothing on standard output unless all is done, a history is judged or a write failed, no control
character on standard error, and an end within a minute. Beside that

  cuts       COUNT files are cut, each at another byte;
  mutations  COUNT files are changed at random, from SEED on; where OTHER is given, a command line of another program that
             takes the same words, both must end with one status text, unless the other one knows no such form;
  histories  COUNT histories are changed at random, from SEED on, so that most are histories still: lines are lost, doubled
             or moved, and times, numbers, names, causes and lists exchanged; beside OTHER as with mutations, so that both
             must name one line and law;
  sizes      files at each limit and one past it: just those past it are refused, as too many;
  pipes      each file is a named pipe: what is answered is what the file itself gives;
  terminal   standard error is a terminal: what is answered is the same, and a policy that is not there is told with its line;
  crowd      COUNT runs at once print what each prints alone.

Printed are how many were tried, how many of them refused, and each wrong one; the exit status is 1 where one was wrong.
"""

import os
import pty
import random
import re
import subprocess
import sys
import tempfile
import threading
from concurrent.futures import ThreadPoolExecutor
from pathlib import Path

TOP = Path(__file__).resolve().parents[2]
SECONDS = 60
STATUS = {
    0: r"",
    1: r"usage",
    2: r"refused \d+ [A-Z][A-Za-z]+ (bytes|root|section|portal|signal|board|turn|route|kind|train|row|line|word|file) \d+ \d+",
    3: r"read fault",
    4: r"write fault",
    5: r"out of memory",
    6: r"checked no \d+ [1-7]",
}
MAY_PRINT = (0, 4, 6)


def ask(program, words, stdin=None):
    """The exit status of the program, and what it printed; None for the status where it did not end."""
    try:
        ran = subprocess.run([*program, *words], cwd=TOP, stdin=stdin or subprocess.DEVNULL, capture_output=True, timeout=SECONDS)
    except subprocess.TimeoutExpired:
        return None, b"", b""
    return ran.returncode, ran.stdout, ran.stderr


def fault_of(answer):
    """Why the answer is none that the program may give; nothing where it is one."""
    status, out, told = answer
    if status not in STATUS:
        return "it did not end" if status is None else f"exit status {status}"
    lines = told.decode("utf-8", "replace").split("\n")
    if told and lines.pop():
        return "standard error ends without a line feed"
    if any(byte < 32 and byte != 10 or byte == 127 for byte in told):
        return "a control character on standard error"
    if not re.fullmatch(STATUS[status], lines[-1] if lines else ""):
        return f"exit status {status} with the status text {lines[-1:]}"
    if out and status not in MAY_PRINT:
        return f"{len(out)} bytes on standard output"
    return None


def status_text(answer):
    """The last line on standard error; nothing where all is done."""
    return answer[2].decode("utf-8", "replace").rstrip("\n").split("\n")[-1] if answer[0] else ""


def commands():
    """The commands of the examples that are asked of the program alone, each a list of its words."""
    rows = re.findall(r"^\| `([^`]*)` \|", (TOP / "examples/README.md").read_text(), re.M)
    found = [row.split() for row in rows]
    return [words for words in found if words[0] not in ("make", "scene", "gen")]


def files_in(words):
    """The places of the words that name files."""
    return [place for place, word in enumerate(words) if (TOP / word).is_file()]


def in_place_of(words, place, text):
    """The words, with a file of this text in place of the one named there."""
    handle, name = tempfile.mkstemp(prefix="rail-attack-", suffix=Path(words[place]).suffix)
    with os.fdopen(handle, "wb") as file:
        file.write(text)
    return [*words[:place], name, *words[place + 1 :]]


def changed_asked(program, words, place, text):
    """What the program answers where this text stands in the file of that place."""
    words = in_place_of(words, place, text)
    try:
        return ask(program, words)
    finally:
        os.remove(words[place])


def cuts(count):
    """So many files, each cut at another byte, spread over all files of all commands."""
    files = [(words, place, (TOP / words[place]).read_bytes()) for words in commands() for place in files_in(words)]
    places = [(words, place, text, end) for words, place, text in files for end in range(len(text))]
    step = max(1, len(places) // count)
    for words, place, text, end in places[::step][:count]:
        yield f"{' '.join(words)}: file {place} cut at {end}", words, place, text[:end]


def mutation(text, chance):
    """The text with a line lost, doubled, moved or taken from elsewhere, a number or a byte exchanged, or a piece lost."""
    lines = text.split(b"\n")
    at, other = chance.randrange(len(lines)), chance.randrange(len(lines))
    kind = chance.randrange(8)
    if kind == 0:
        del lines[at]
    elif kind == 1:
        lines.insert(at, lines[at])
    elif kind == 2:
        lines[at], lines[other] = lines[other], lines[at]
    elif kind == 3:
        lines[at] = lines[other]
    elif kind in (4, 5) and (numbers := list(re.finditer(rb"\d+", text))):
        found, value = chance.choice(numbers), chance.choice([b"0", b"1", b"7", b"65536", b"4294967296", b"99999999999999999999"])
        return text[: found.start()] + value + text[found.end() :]
    elif text:
        begin = chance.randrange(len(text))
        end = begin + chance.choice([0, 1, 1, 2, 20])
        piece = bytes(chance.choice(b"\0\t\n\r\x1b\x7f\xc3 \"#,-0:=A[]z") for _ in range(chance.choice([0, 1, 1, 3])))
        return text[:begin] + piece + text[end:]
    return b"\n".join(lines)


def mutations(count, seed):
    chance = random.Random(seed)
    files = [(words, place) for words in commands() for place in files_in(words)]
    for number in range(count):
        words, place = chance.choice(files)
        text = (TOP / words[place]).read_bytes()
        for _ in range(chance.choice([1, 1, 1, 2, 3])):
            text = mutation(text, chance)
        yield f"{' '.join(words)}: file {place}, change {number} from {seed}", words, place, text


def exchanged(line, lines, chance):
    """The line with one of its words exchanged: its time or a number by another near it, else by a word of another line."""
    words = line.split(b" ")
    at = chance.randrange(len(words))
    word = words[at]
    if at == 0:
        words[0] = chance.choice(lines).split(b" ")[0]
    elif word.isdigit():
        words[at] = b"%d" % max(0, int(word) + chance.choice([-1, 1, 2]))
    elif word in (b"pulled", b"appended"):
        words[at] = chance.choice([b"pulled", b"appended"])
    else:
        other = chance.choice(lines).split(b" ")
        words[at] = other[at] if at < len(other) else chance.choice(other)
    return b" ".join(words)


def lawless(text, chance):
    """A history with a line lost, doubled, moved to another place or put in order anew, or a word of it exchanged."""
    lines = text.rstrip(b"\n").split(b"\n")
    at = chance.randrange(len(lines))
    kind = chance.randrange(8)
    if kind == 0:
        del lines[at]
    elif kind == 1:
        lines.insert(at, lines[at])
    elif kind == 2:
        lines.insert(max(0, at - chance.choice([1, 1, 2, 5])), lines.pop(at))
    elif kind == 3:
        lines = lines[:at]
    else:
        lines[at] = exchanged(lines[at], lines, chance)
    return b"".join(line + b"\n" for line in lines)


def histories(count, seed):
    chance = random.Random(seed)
    checks = [words for words in commands() if words[0] == "check" and (TOP / words[4]).stat().st_size]
    for number in range(count):
        words = chance.choice(checks)
        text = (TOP / words[4]).read_bytes()
        for _ in range(chance.choice([1, 1, 1, 2])):
            text = lawless(text, chance)
        yield f"{' '.join(words)}: change {number} from {seed}", words, 4, text


def items(table, count, keys):
    """So many items of a table of a scene."""
    return "".join(f"[[{table}]]\nname = \"{table[0]}{number}\"\n{keys(number)}" for number in range(count))


def sizes():
    """Files at a limit and past it: what is asked, the place and text of the file, and the part that is one too many."""
    run = ["run", "examples/loop.toml", "-", "examples/priority.cmd"]
    check = ["check", "examples/loop.toml", "-", "-", "examples/loop.history"]
    edit = ["edit", "examples/loop.toml", "examples/siding.edits"]
    head = "version = 1\nrelease = 0\n"
    plain = lambda number: f'kind = "plain"\nlength = 1\nspeed = 1\njoints = ["a{number}", "b{number}"]\n'
    kind = lambda number: "length = 1\nspeed = 1\nstart = 0\nstop = 0\n"
    for most, part, text in [
        (512, "section", lambda count: head + items("section", count, plain)),
        (128, "kind", lambda count: head + items("kind", count, kind)),
    ]:
        yield f"{most} and more of {part}", ["infra", "examples/loop.toml"], 1, most, part, text
    yield "commands", run, 3, 1024, "line", lambda count: "00:00:01 priority A 1\n" * count
    add, remove = "add section Z plain 1 1 y z\n", "remove section Z\n"
    yield "edits", edit, 2, 4096, "line", lambda count: (add + remove) * (count // 2) + add * (count % 2)
    yield "bytes of a scene", ["infra", "examples/loop.toml"], 1, 1_048_576, "file", lambda count: head + "#" * (count - len(head) - 1) + "\n"
    yield "bytes of commands", run, 3, 1_048_576, "file", lambda count: "#" * (count - 1) + "\n"
    yield "bytes of a history", check, 4, 16_777_216, "file", lambda count: "x" * (count - 1) + "\n"


class Score:
    """How many were tried, refused and wrong."""

    def __init__(self):
        self.lock, self.tried, self.refused, self.wrong = threading.Lock(), 0, 0, 0

    def note(self, what, answer, why):
        with self.lock:
            self.tried, self.refused, self.wrong = self.tried + 1, self.refused + (answer[0] == 2), self.wrong + bool(why)
            if why:
                print(f"{what}: {why}")

    def tell(self):
        print(f"{self.tried} tried, {self.refused} refused, {self.wrong} wrong")
        sys.exit(self.wrong > 0)


def try_files(program, other, cases, score):
    """Asks for each case, and notes what is wrong with its answer."""

    def one(case):
        what, words, place, text = case
        answer = changed_asked(program, words, place, text)
        why = fault_of(answer)
        if not why and other:
            wanted = changed_asked(other, words, place, text)
            if wanted[0] != 1 and status_text(wanted) != status_text(answer):
                why = f"{status_text(answer)}, but {status_text(wanted)} of the other program"
        score.note(what, answer, why)

    with ThreadPoolExecutor(os.cpu_count()) as pool:
        list(pool.map(one, cases))


def try_sizes(program, score):
    """Just what is past a limit is refused as too many."""
    for what, words, place, most, part, text in sizes():
        for count in (most, most + 1):
            answer = changed_asked(program, words, place, text(count).encode())
            is_refused = re.search(rf"^refused 17 TooMany {part} ".encode(), answer[2], re.M) is not None
            why = fault_of(answer) or (None if is_refused == (count > most) else f"{answer[2].splitlines()[-1:]}")
            score.note(f"{what}, {count}", answer, why)


def piped(program, words):
    """What the program answers where each file is a named pipe."""
    with tempfile.TemporaryDirectory(prefix="rail-attack-") as folder:
        writers = []
        for place in files_in(words):
            pipe = Path(folder) / f"{place}{Path(words[place]).suffix}"
            os.mkfifo(pipe)
            text, words = (TOP / words[place]).read_bytes(), [*words[:place], str(pipe), *words[place + 1 :]]
            writers.append(threading.Thread(target=pipe.write_bytes, args=(text,), daemon=True))
            writers[-1].start()
        return ask(program, words)


def try_pipes(program, score):
    for words in commands():
        answer, wanted = piped(program, words), ask(program, words)
        same = answer[:2] == wanted[:2]
        score.note(" ".join(words), answer, fault_of(answer) or (None if same else "another answer than the file's"))


def at_terminal(program, words):
    """What the program answers where standard error is a terminal."""
    ours, its = pty.openpty()
    ran = subprocess.run([*program, *words], cwd=TOP, stdin=subprocess.DEVNULL, stdout=subprocess.PIPE, stderr=its, timeout=SECONDS)
    os.close(its)
    told = b""
    try:
        while piece := os.read(ours, 65_536):
            told += piece
    except OSError:  # the terminal is closed, and has no more
        pass
    os.close(ours)
    return ran.returncode, ran.stdout, told.replace(b"\r\n", b"\n")


def try_terminal(program, score):
    for words in commands():
        answer = at_terminal(program, words)
        score.note(" ".join(words), answer, fault_of(answer) or (None if answer == ask(program, words) else "another answer than elsewhere"))
    scene = next(words[1] for words in commands() if words[0] == "run")
    with tempfile.NamedTemporaryFile(suffix=".cmd") as file:
        file.write(b"00:00:00 policy fcfs\n00:00:00 policy best\n")
        file.flush()
        words = ["run", scene, "-", file.name]
        status, out, told = at_terminal(program, words)
        is_told = told.startswith(f"{file.name}: line 2: no policy is named best, ".encode()) and told.count(b"\n") == 1
        elsewhere = ask(program, words)
        score.note("a policy that is not there", elsewhere, None if is_told and elsewhere == (status, out, b"") else f"it tells {told}")


def try_crowd(program, count, score):
    wanted = {tuple(words): ask(program, words) for words in commands()}
    asked = (list(wanted) * (count // len(wanted) + 1))[:count]
    with ThreadPoolExecutor(4 * os.cpu_count()) as pool:
        for words, answer in zip(asked, pool.map(lambda words: ask(program, words), asked)):
            score.note(" ".join(words), answer, fault_of(answer) or (None if answer == wanted[words] else "another answer than alone"))


def main():
    if len(sys.argv) < 3:
        sys.exit(__doc__)
    program, what, rest = sys.argv[1].split(), sys.argv[2], sys.argv[3:]
    count = int(rest[0]) if rest else 1000
    score = Score()
    if what == "cuts":
        try_files(program, None, cuts(count), score)
    elif what == "mutations":
        try_files(program, rest[2:], mutations(count, int(rest[1]) if rest[1:] else 0), score)
    elif what == "histories":
        try_files(program, rest[2:], histories(count, int(rest[1]) if rest[1:] else 0), score)
    elif what == "sizes":
        try_sizes(program, score)
    elif what == "pipes":
        try_pipes(program, score)
    elif what == "terminal":
        try_terminal(program, score)
    elif what == "crowd":
        try_crowd(program, count, score)
    else:
        sys.exit(__doc__)
    score.tell()


if __name__ == "__main__":
    main()
