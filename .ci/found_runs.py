"""The run that `roundc explore` prints after a `no`, checked by a second reading in Python: that
the question covers it, that the property fails in it in that round and not before, and that the table
and the decisions are those of the run.
"""
import collections
import json
import re

import exploring
import reading
import reading_data

BLANKS = "    "  # what the lines of a run begin with
MISSES = re.compile(r"node (\d+) misses (node \d+(?: and node \d+)*) in round (\d+)")
CRASHES = re.compile(r"node (\d+) crashes in round (\d+)")
OMITS = re.compile(r"node (\d+) may omit what it sends")
DECIDED = re.compile(r"node (\d+) decided (\d+) in round (\d+)")
MANY = "and more messages are missed"
LEFT_OUT = re.compile(r"\((\d+) rows are left out\)")


class FailingRun:
    """A run in which a property fails: `inputs`, `pattern` (for each node the round of its crash,
    "omits" or nothing), and whom a node misses in a round, in `missed`."""

    def misses(self, node, number):
        """Returns whom a node misses in a round, with those that have crashed before."""
        gone = {j for j, it in enumerate(self.pattern) if isinstance(it, int) and it < number}
        return frozenset(self.missed[node, number] | gone)

    def omissions(self, nodes):
        """Returns the run's omissions as lines of an omission file."""
        omitted = [reading.Omission("omit", str(node), str(number), str(sender))
                   for (node, number), senders in self.missed.items() for sender in senders]
        for node, it in enumerate(self.pattern):
            if isinstance(it, int):
                heard = [to for to in range(nodes) if node not in self.missed[to, it]]
                omitted.append(reading.Omission("crash", str(node), str(it),
                                                ",".join(map(str, heard)) or "-"))
        return omitted

    def report(self, checked, setup):
        """Returns the report of the run."""
        made = reading.Rounds(reading.Algorithm(checked, setup), self.omissions(setup.nodes))
        return reading_data.report_of(made.report())


class FoundData(FailingRun):
    """What the object of a run says."""

    def __init__(self, run, nodes):
        self.inputs, self.rows = run["inputs"], run["rows"]
        self.pattern = [None] * nodes
        self.missed = collections.defaultdict(set)
        for crash in run["crashes"]:
            self.pattern[crash["node"]] = crash["round"]
        for node in run["omitting"]:
            self.pattern[node] = "omits"
        for one in run["missed"]:
            self.missed[one["node"], one["round"]] |= set(one["senders"])

    def is_whole(self):
        return True

    def differs(self, checked, setup):
        """Returns what is wrong with the rows of the run, or nothing."""
        lines = reading_data.json_text(self.report(checked, setup)).splitlines()
        rows = [it for it in map(json.loads, lines) if "round" in it]
        return "" if self.rows == rows else f"the rows are {rows}"


class FoundRun(FailingRun):
    """What the lines of a run say, without their blanks."""

    def __init__(self, lines, nodes):
        self.lines = lines
        self.inputs = [int(it) for it in lines[0].removeprefix("inputs ").split()]
        self.pattern = [None] * nodes
        self.missed = collections.defaultdict(set)
        for line in lines:
            if found := CRASHES.fullmatch(line):
                self.pattern[int(found[1])] = int(found[2])
            elif found := OMITS.fullmatch(line):
                self.pattern[int(found[1])] = "omits"
            elif found := MISSES.fullmatch(line):
                senders = set(map(int, re.findall(r"\d+", found[2])))
                self.missed[int(found[1]), int(found[3])] |= senders
        heads = [at for at, it in enumerate(lines) if re.match(r"round +node +heard", it)]
        self.table = lines[heads[0]:] if heads else []

    def is_whole(self):
        """Returns whether nothing of the run is left out."""
        return MANY not in self.lines and not any(map(LEFT_OUT.fullmatch, self.lines))

    def differs(self, checked, setup):
        """Returns what is wrong with the table and the decisions of the run, or nothing."""
        return is_told_as_run(checked, setup, self)


def objects_of(wanted):
    """Yields each answer that is false among the objects that are printed, as its name and round,
    with its run."""
    for line in wanted:
        if line.startswith("{"):
            told = json.loads(line)
            if told.get("holds") is False and "run" in told:
                yield told["property"], told["round"], told["run"]


def lines_of(wanted):
    """Yields each answer that is `no` in what is printed, as its name and round, with its run."""
    for at, line in enumerate(wanted):
        if found := re.fullmatch(r"(\w+) no in round (\d+)", line):
            after = at + 1
            while after < len(wanted) and wanted[after].startswith(BLANKS):
                after += 1
            yield found[1], int(found[2]), [it[len(BLANKS):] for it in wanted[at + 1:after]]


def covers_and_fails(checked, setup, asked, name, run):
    """Returns what is wrong with a run as one in which the property fails, or nothing."""
    if sum(it is not None for it in run.pattern) > setup.faults:
        return "too many nodes fail"
    level = exploring.Level(reading.Algorithm(checked, setup), run.pattern, asked.formula)
    for number in range(1, setup.rounds + 1):
        row = [run.misses(node, number) for node in range(setup.nodes)]
        allowed = exploring.rows(setup, asked.question, run.pattern, number)
        if not set(row) <= set(allowed):
            return f"the question allows no such round {number}"
        (states, *_seen), = level.runs.values()
        after = [level.ends(states, [missed], node)[0] for node, missed in enumerate(row)]
        level.ends = lambda states, choices, node, after=after: [after[node]]
        level.follow(None)
        del level.ends
        if level.broken(name) != (number == setup.rounds):
            return f"it's another round in which it fails than {setup.rounds}"
    return ""


def is_told_as_run(checked, setup, run):
    """Returns what is wrong with the table and the decisions of a run, or nothing."""
    report = run.report(checked, setup)
    table = reading_data.table_text(report, changed=True).splitlines()
    rows = [it for it in table if it and it != table[0]]
    if run.table != table[:1] + rows:
        return "\n    ".join(["the table is", *table[:1], *rows])
    decided = {(row.node, row.round): row.decision for row in report.rows}
    for line in run.lines:
        for node, value, number in DECIDED.findall(line):
            if decided.get((int(node), int(number))) != value:
                return f"{line}: it has {decided.get((int(node), int(number)))}"
    return ""


def fault(checked, header, asked, runs):
    """Returns what is wrong with the runs of answers, or nothing."""
    for name, number, told in runs:
        if not told:
            continue
        kind = FoundData if isinstance(told, dict) else FoundRun
        run = kind(told, header.nodes)
        if not asked.is_any and run.inputs != list(header.inputs):
            return f"{name}: other inputs"
        setup = header._replace(inputs=run.inputs, rounds=number)
        if run.is_whole():
            wrong = (covers_and_fails(checked, setup, asked, name, run)
                     or run.differs(checked, setup))
            if wrong:
                return f"{name}: {wrong}"
    return ""
