#!/usr/bin/env python3
"""Writes the man page and the completions of bash, zsh and fish into share/, or checks them.

usage: write_manual.py [--check] REPOSITORY

The forms come from the table of `crates/rail_command_line/src/forms.rt`, in its order: the verb, the words behind it, the hint
and the sentence of each. What stands for a file, and all else that the page says, comes from the answer to `rail --help` in
`crates/rail_explain/src/help.rt`, and its date from CHANGELOG.md. A word of the table that this answer does not tell ends the
script.

The status is 1 with --check where a file is not what would be written; then nothing is written.
"""

import argparse
import dataclasses
import pathlib
import re
import sys
import textwrap

BY = "Written by tools/pages/write_manual.py from the table of forms."
ENDINGS = {"TOML": ".toml", "CSV": ".csv"}
OPTIONS = (("--help", "all forms"), ("--version", "the version"))


@dataclasses.dataclass
class Form:
    verb: str
    words: str
    hint: str
    sentence: str

    def operands(self):
        return re.findall(r"[A-Z]+", self.words)


@dataclasses.dataclass
class Help:
    """The answer to `rail --help` beside the lines of the forms."""

    title: str
    version: str
    date: str
    words: str
    statuses: list
    status_text: str
    files: dict
    may_be_left_out: list


def read_forms(repository):
    """The forms of the program's table, in its order."""
    source = (repository / "crates/rail_command_line/src/forms.rt").read_text()
    order = re.findall(r"Form::(\w+)", re.search(r"pub const FORMS: .*?\];", source, re.S)[0])
    texts = {}
    for part in ("verb", "words", "hint", "sentence"):
        body = re.search(rf"pub fn {part}\(self\)(.*?)\n    \}}\n", source, re.S)[1]
        texts[part] = {
            name: text
            for names, text in re.findall(r'((?:Form::\w+(?:\s*\|\s*)?)+)\s*=>\s*\{?\s*"([^"]*)"', body)
            for name in re.findall(r"Form::(\w+)", names)
        }
    return [Form(*(texts[part].get(name, "") for part in ("verb", "words", "hint", "sentence"))) for name in order]


def constant(source, name):
    """The text of a constant; a line that ends in a backslash goes on in the next one."""
    text = re.search(rf'pub const {name}: &str =\s*"(.*?)";', source, re.S)[1]
    return re.sub(r"\\\n\s*", "", text).replace("\\n", "\n")


def newest(repository):
    """The number and the date of the newest version of CHANGELOG.md."""
    return re.search(r"^## ([\d.]+) - (\S+)$", (repository / "CHANGELOG.md").read_text(), re.M).groups()


def read_help(repository):
    source = (repository / "crates/rail_explain/src/help.rt").read_text()
    _, words, ends = constant(source, "HELP_BEHIND").strip("\n").split("\n\n")
    words, ends = " ".join(words.split()), " ".join(ends.split())
    statuses, _, status_text = ends.removeprefix("Exit status: ").partition(". ")
    files = {word: ENDINGS[kind] for word, kind in re.findall(r"([A-Z]+)(?: is)? an? ([A-Z]+) file", words)}
    files |= dict.fromkeys(re.findall(r"[A-Z]+", re.search(r"([A-Z, ]+(?:and [A-Z]+)?) are files of lines", words)[1]), "")
    return Help(
        constant(source, "HELP_BEFORE").strip().rstrip("."),
        constant(source, "VERSION").strip(),
        newest(repository)[1],
        words,
        [it.split(" ", 1) for it in re.split(r", (?=\d )", statuses)],
        status_text,
        files,
        re.findall(r"[A-Z]+", re.search(r"`-` for ([A-Z]+ or [A-Z]+) stands for no file", words)[1]),
    )


def roff(text):
    """A text as a man page has it, with its words in capitals as arguments and what stands between backquotes in bold."""
    text = text.replace("\\", r"\e").replace("-", r"\-")
    text = re.sub(r"`([^`]*)`", r"\\fB\1\\fR", text)
    return re.sub(r"\b([A-Z]{3,}|TO)\b(?! file)", r"\\fI\1\\fR", text)


def filled(text):
    """The text as lines of a man page, each sentence on lines of its own."""
    lines = re.split(r"(?<=\.) (?=[A-Z`])", text)
    return "\n".join(textwrap.fill(roff(line), 79, break_on_hyphens=False, break_long_words=False) for line in lines)


def man_page(forms, told):
    title, _, version = told.version.partition(" ")
    what, _, proof = told.title.partition("; ")
    lines = [f'.\\" {BY}', f'.TH {title.upper()} 1 "{told.date}" "{title} {version}" "User Commands"', ".nh"]
    lines += [".SH NAME", roff(what).replace(f"{title} ", f"{title} \\- ", 1), ".SH SYNOPSIS"]
    for form in forms:
        lines += [f".B {title} {form.verb}", roff(form.words), ".br"]
    lines += [f".B {title}", r"\fB\-\-help\fR | \fB\-\-version\fR"]
    lines += [".SH DESCRIPTION", filled(f"`{title}` {what.removeprefix(title + ' ')}; {proof}.")]
    lines += ["Each command prints its answer on standard output:"]
    for form in forms:
        lines += [".TP", roff(f"`{form.verb}` {form.words}"), filled(form.sentence + form.hint)]
    for option, sentence in OPTIONS:
        lines += [".TP", roff(f"`{option}`"), sentence]
    lines += [".SH OPERANDS", filled(told.words), ".SH EXIT STATUS"]
    for status, meaning in told.statuses:
        lines += [".TP", rf"\fB{status}\fR", roff(meaning)]
    lines += [".PP", filled(told.status_text)]
    return "\n".join(lines) + "\n"


def asked_at(forms):
    """For each operand where it may stand: the places behind the program's name, each with the verbs that have it there."""
    found = {}
    for form in forms:
        for place, word in enumerate(form.operands(), 2):
            found.setdefault(word, {}).setdefault(place, []).append(form.verb)
    return found


BASH = """\
_rail() {
    # Times have colons, at which the words of COMP_WORDS are cut.
    local line=${COMP_LINE:0:COMP_POINT} word='' words place
    read -ra words <<< "$line"
    place=${#words[@]}
    if [[ $line != *[[:space:]] ]]; then
        ((place -= 1))
        word=${words[place]}
    fi
    COMPREPLY=()
    if ((place == 1)); then
        mapfile -t COMPREPLY < <(compgen -W 'VERBS' -- "$word")
        return
    fi
    case "${words[1]} $place" in
CASES
    esac
}
complete -o filenames -F _rail rail
"""


def bash(forms, told):
    cases = {}
    for word, places in asked_at(forms).items():
        if word in told.files:
            same = cases.setdefault((told.files[word], word in told.may_be_left_out), [])
            same += [f"'{verb} {place}'" for place, verbs in places.items() for verb in verbs]
    lines = []
    for (ending, may_be_left_out), places in cases.items():
        files = f"compgen -f -X '!*{ending}' -- \"$word\"; compgen -d -- \"$word\"" if ending else 'compgen -f -- "$word"'
        lines += [f"    {' | '.join(places)})", f"        mapfile -t COMPREPLY < <({files})"]
        lines += ['        [ -n "$word" ] || COMPREPLY+=(-)'] * may_be_left_out + ["        ;;"]
    verbs = " ".join([form.verb for form in forms] + [option for option, _ in OPTIONS])
    return f"# {BY}\n" + BASH.replace("VERBS", verbs).replace("CASES", "\n".join(lines))


def zsh(forms, told):
    def quoted(text):
        return text.replace("'", "'\\''").replace(":", "\\:")

    lines = ["#compdef rail", f"# {BY}", "local -a verbs", "verbs=("]
    lines += [f"    '{form.verb}:{quoted(form.sentence)}'" for form in forms]
    lines += [f"    '{option}:{quoted(sentence)}'" for option, sentence in OPTIONS]
    lines += [")", "if (( CURRENT == 2 )); then", "    _describe command verbs", "    return", "fi", 'case "$words[2] $CURRENT" in']
    for word, places in asked_at(forms).items():
        cases = "|".join(f"{verb}\\ {place + 1}" for place, verbs in places.items() for verb in verbs)
        files = f"files:{word}:_files" + (f' -g "*{told.files[word]}(-.)"' if told.files.get(word) else "")
        if word not in told.files:
            asked = f"_message {word}"
        elif word in told.may_be_left_out:
            asked = f"_alternative 'none:no file:(-)' '{files}'"
        else:
            asked = f"_alternative '{files}'"
        lines += [f"{cases})", f"    {asked}", "    ;;"]
    lines += ["esac"]
    return "\n".join(lines) + "\n"


def fish(forms, told):
    def quoted(text):
        return text.replace("\\", "\\\\").replace("'", "\\'")

    lines = [
        f"# {BY}",
        "function __rail_is_asked --description 'Whether the word behind so many words is asked for, of a command of these'",
        "    set -l words (commandline -opc)",
        "    test (count $words) -eq $argv[1]; and contains -- \"$words[2]\" $argv[2..-1]",
        "end",
        "complete -c rail -f",
    ]
    at_first = "test (count (commandline -opc)) -eq 1"
    lines += [f"complete -c rail -n '{at_first}' -a {form.verb} -d '{quoted(form.sentence)}'" for form in forms]
    lines += [f"complete -c rail -n '{at_first}' -l {option[2:]} -d '{sentence}'" for option, sentence in OPTIONS]
    for word, places in asked_at(forms).items():
        for place, verbs in places.items() if word in told.files else ():
            asked = f"complete -c rail -n '__rail_is_asked {place} {' '.join(verbs)}'"
            lines.append(f"{asked} -k -a '(__fish_complete_suffix {told.files[word]})'" if told.files[word] else f"{asked} -F")
            if word in told.may_be_left_out:
                lines.append(f"{asked} -a - -d 'no file'")
    return "\n".join(lines) + "\n"


def written(repository):
    """The files of share/, by their paths."""
    forms, told = read_forms(repository), read_help(repository)
    for form in forms:
        for word in form.operands():
            if not re.search(rf"\b{word}\b", told.words + form.hint):
                sys.exit(f"the answer to `rail --help` does not tell what {word} of `rail {form.verb}` is")
    return {
        "share/man/man1/rail.1": man_page(forms, told),
        "share/bash-completion/completions/rail": bash(forms, told),
        "share/zsh/site-functions/_rail": zsh(forms, told),
        "share/fish/vendor_completions.d/rail.fish": fish(forms, told),
    }


def main():
    parser = argparse.ArgumentParser(description=__doc__, formatter_class=argparse.RawDescriptionHelpFormatter)
    parser.add_argument("--check", action="store_true")
    parser.add_argument("repository", type=pathlib.Path)
    asked = parser.parse_args()
    other = []
    for name, text in written(asked.repository).items():
        path = asked.repository / name
        if not asked.check:
            path.parent.mkdir(parents=True, exist_ok=True)
            path.write_text(text)
        elif not path.exists() or path.read_text() != text:
            other.append(name)
    if other:
        print(f"not what the table of forms says: {' '.join(other)}")
    sys.exit(bool(other))


if __name__ == "__main__":
    main()
