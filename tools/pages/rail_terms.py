"""Inputs and histories of rail as terms of the definitions in crates/rail_rules.

Reads a scene (TOML), a timetable (CSV), a command file and a history, none of which is checked:
they are to be accepted inputs and well-formed lines.
"""

import csv
import io
import tomllib

DECK = [("priority", "Priority"), ("timetable", "Timetable"), ("fcfs", "Fcfs"), ("rotating", "Rotating")]


def time_of(text):
    """Tenths of a second of `H:MM:SS` or `H:MM:SS.T`."""
    clock, _, tenth = text.partition(".")
    hours, minutes, seconds = clock.split(":")
    return (int(hours) * 3600 + int(minutes) * 60 + int(seconds)) * 10 + int(tenth or 0)


def codes(text):
    """A name as the list of its bytes, spelled so that it computes."""
    return list_of(str(byte) for byte in text.encode())


def list_of(items):
    items = [str(item) for item in items]
    return " ∷ ".join([item if " " not in item or item[0] in "(r" else "(%s)" % item for item in items] + ["[]"])


def paren(text):
    return text if " " not in text else "(%s)" % text


class Case:
    """A scene with its timetable and commands."""

    def __init__(self, scene, timetable="", commands=""):
        self.scene = tomllib.loads(scene)
        self.sections = self.scene.get("section", [])
        self.section_numbers = {s["name"]: n for n, s in enumerate(self.sections)}
        self.trains = self.scene.get("train", [])
        self.train_numbers = {t["name"]: n for n, t in enumerate(self.trains)}
        self.posts = {}
        for role in ("portal", "signal", "board"):
            for post in self.scene.get(role, []):
                self.posts[post["name"]] = dict(post, role=role)
        self.routes = {r["name"]: r for r in self.scene.get("route", [])}
        self.kinds = {k["name"]: k for k in self.scene.get("kind", [])}
        self.turns = {(t["arriving"], t["leaving"]): t["time"] for t in self.scene.get("turn", [])}
        self.calls = self.read_calls(timetable)
        self.commands = self.read_commands(commands)
        self.policy = self.scene.get("policy", "fcfs")

    def read_calls(self, text):
        calls = [[None] * len(t["routes"]) for t in self.trains]
        # A line without a field is no record.
        for record in [it for it in csv.reader(io.StringIO(text)) if it][1:]:
            train, place, arrival, departure, dwell = record
            t, p = self.train_numbers[train], int(place)
            calls[t][p - 1] = {
                "stops": p < len(self.trains[t]["routes"]) and dwell != "pass",
                "arrival": time_of(arrival) if arrival else None,
                "departure": time_of(departure) if departure else None,
                "dwell": 0 if dwell in ("", "pass") else time_of(dwell),
            }
        return calls

    def read_commands(self, text):
        commands = []
        for line in text.split("\n"):
            words = line.rstrip("\r").split()
            if not words or words[0].startswith("#"):
                continue
            at, order, rest = time_of(words[0]), words[1], words[2:]
            if order in ("policy", "retire"):
                what = "%s (%s)" % (order.capitalize(), codes(rest[0]))
            elif order in ("close", "open"):
                what = "%s %d" % ({"close": "Close", "open": "Reopen"}[order], self.section_numbers[rest[0]])
            elif order == "priority":
                what = "Priority %d %d" % (self.train_numbers[rest[0]], int(rest[1]))
            else:
                what = "%s %d" % (order.capitalize(), self.train_numbers[rest[0]])
            commands.append((at, what))
        return commands

    def turn_at(self, train, place):
        """The turn at the end of the train's move `place`, counted from 0: step from 1 and time, or None."""
        names = train["routes"]
        if place + 1 >= len(names):
            return None
        here, following = self.routes[names[place]], self.routes[names[place + 1]]
        if here["to"] == following["from"]:
            return None
        leaving = self.posts[following["from"]]
        joints, sections = here["path"][0::2], here["path"][1::2]
        step = next(j for j, x in enumerate(sections) if joints[j] == leaving["joint"] and x != leaving["ahead"])
        return step + 1, self.turns[(here["to"], following["from"])]

    def move_term(self, train, place):
        route = self.routes[train["routes"][place]]
        post = self.posts[route["from"]]
        turn = self.turn_at(train, place)
        return "record { sections = %s; overlap = %s; setting = %d; watching = %d; approach = %d; turn = %s }" % (
            list_of(self.section_numbers[x] for x in route["path"][1::2]),
            list_of(self.section_numbers[x] for x in route.get("overlap", [])[0::2]),
            post["setting"], post["watching"], post["approach"],
            "None" if turn is None else "Some (record { step = %d; time = %d })" % turn)

    def train_term(self, train):
        kind = self.kinds[train["kind"]]
        return ("record { name = %s; kind = record { name = %s; length = %d; speed = %d; start = %d; stop = %d }; "
                "entry = %d; priority = %d; moves = %s }") % (
            codes(train["name"]), codes(kind["name"]), kind["length"], kind["speed"], kind["start"], kind["stop"],
            time_of(train["entry"]), train.get("priority", 0),
            list_of(self.move_term(train, m) for m in range(len(train["routes"]))))

    def call_term(self, call):
        if call is None:
            return "None"
        option = lambda time: "None" if time is None else "Some %d" % time
        return "Some (record { stops = %s; arrival = %s; departure = %s; dwell = %d })" % (
            "true" if call["stops"] else "false", option(call["arrival"]), option(call["departure"]), call["dwell"])

    def definitions(self):
        """The definitions of plant, deck and input."""
        sections = list_of("record { name = %s; length = %d; speed = %d }" % (codes(s["name"]), s["length"], s["speed"])
                           for s in self.sections)
        has_calls = any(call is not None for row in self.calls for call in row)
        calls = list_of("(%s)" % list_of(self.call_term(call) for call in row) for row in self.calls) if has_calls else "[]"
        names = [name for name, _ in DECK]
        return "\n".join([
            "-- the plant",
            "abbrev pub plant : Plant",
            "plant = record {",
            "  tables = record {",
            "    sections = %s;" % sections,
            "    release = %d;" % self.scene["release"],
            "    overlap_time = %d;" % self.scene.get("overlap_time", 0),
            "    depth = %d;" % self.scene.get("depth", 1),
            "    trains = %s;" % list_of(self.train_term(t) for t in self.trains),
            "  };",
            "  calls = %s;" % calls,
            "}",
            "",
            "-- the boxes of the deck",
            "abbrev pub seats : List Seat",
            "seats = %s" % list_of("record { name = %s; kind = %s; mark = 0 }" % (codes(n), "kind." + k) for n, k in DECK),
            "",
            "-- the input",
            "abbrev pub input : Input",
            "input = record { plant = plant; commands = %s; deck = %s; force = %d }" % (
                list_of("record { at = %d; what = %s }" % (at, paren("order." + what)) for at, what in self.commands),
                list_of("(%s)" % codes(n) for n in names),
                names.index(self.policy)),
        ])

    def line_term(self, text):
        """A line of a history."""
        words = text.split(" ")
        at, verb, rest = time_of(words[0]), words[1], words[2:]
        train, section = self.train_numbers, self.section_numbers
        trains = []
        if verb == "free":
            what = "Free %d %d" % (section[rest[0]], train[rest[1]])
        elif verb in ("arrive", "ready"):
            what = "%s %d %d" % (verb.capitalize(), train[rest[0]], int(rest[1]))
        elif verb == "enter":
            what = "Enter %d %d %d" % (train[rest[0]], int(rest[1]), section[rest[2]])
        elif verb == "out":
            what = "Out %d" % train[rest[0]]
        elif verb in ("told", "untold"):
            what = "%s %d" % (verb.capitalize(), int(rest[0]))
        elif verb == "admit":
            what = "Admit %d %d %s" % (train[rest[0]], int(rest[1]), rest[2].capitalize())
            for item in rest[3:]:
                name, _, count = item.partition("*")
                trains += [train[name]] * int(count or 1)
        elif verb == "hold":
            cause = {"stopped": "Stopped", "closed": "Closed", "blocked": "Blocked", "nolist": "NoList"}[rest[2]]
            if len(rest) > 3:
                cause += " %d" % section[rest[3]]
            if len(rest) > 4:
                cause += " %d" % train[rest[4]]
            what = "Hold %d %d %s" % (train[rest[0]], int(rest[1]), paren(cause))
        else:
            what = "End"
            trains = [train[name] for name in rest]
        return "record { entry = record { at = %d; what = %s }; trains = %s }" % (at, what, list_of(trains))

    def front_definition(self, name, lines):
        """A front of these lines, the newest first."""
        return self.list_definition(name, "Front", reversed(lines))

    def lines_definition(self, name, lines):
        """These lines, the oldest first."""
        return self.list_definition(name, "List Line", lines)

    def list_definition(self, name, kind, lines):
        terms = "".join("    %s ∷\n" % self.line_term(line) for line in lines)
        return "abbrev pub %s : %s\n%s =\n%s    []" % (name, kind, name, terms)


USES = """use Rattle.std.specs.Prelude.{◌≡◌, Bool, true, false, List, [], ◌∷◌, Some, None, refl}
use Rattle.rail_base.specs.declared.orders.Order.TheVariants as order
use Rattle.rail_base.specs.declared.orders.PolicyKind.TheVariants as kind
use Rattle.rail_base.specs.declared.history.What.TheVariants.{Free, Arrive, Enter, Out, Ready, Told, Untold, Admit, Hold, End}
use Rattle.rail_base.specs.declared.history.Note.TheVariants.{Pulled, Appended, Fresh}
use Rattle.rail_base.specs.declared.history.Cause.TheVariants.{Stopped, Closed, Blocked, NoList}
use Rattle.rail_rules.specs.Plant.{Plant}
use Rattle.rail_rules.specs.Orders.{Input}
use Rattle.rail_rules.specs.Fronts.{Line, Front}
use Rattle.rail_rules.specs.RunHistories.{Seat}
"""
