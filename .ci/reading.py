"""What roundc answers, read from docs/SCHEDULES.md a second time, in Python.

It shares nothing with the crates, and a schedule is never run. Which message was carried is told by
the places of events in the finished list, and the states are those of a run in rounds under the
omissions that come of it; .ci/language.py reads the programs.

`answer` is the whole of it; .ci/long compares it with the program, byte for byte.
"""
import bisect
import codecs
import collections
import json
import re

import reading_data
from language import LARGEST, VALUES, Checked, Parser, Refused, value

SOURCE_LIMIT, SCHEDULE_LIMIT = 65536, 16777216  # bytes
NODES, FAULTS, ROUNDS, DELTA = 16, 15, 4096, 1024
TABLE = 65536  # entries of a list of delays or orders
EARLY = 3  # the rounds for which a message may come before its own

LIBRARY = {
    "gather": """values K period 1 input x state seen: set = single(x) decide seen
at 1: message (s: set) send when true: (seen) on message: seen := seen union s; end:""",
    "count_votes": """values K period 1
input x state votes: row = zero state last: row = zero state top: set = empty decide top
at 1: message (v: num) send when true: (x)
  on message: votes := [w : if w = v then votes[w] + 1 else votes[w]];
  end: top := {w : votes[w] > n div 2}; last := votes; votes := zero;""",
    "dls1": """values K period 4
input x state proper: set = single(x) state locks: row = zero state lists: row = zero
state prop: set = empty state got: bool = false state acks: num = 0 state done: set = empty
decide done
at 1: message (list: set, p: set) send when dest = (phase - 1) mod n:
    ({v : has(proper, v) and size({w : w <> v and locks[w] > 0}) = 0}, proper)
  on message: lists := [v : if has(list, v) then lists[v] + 1 else lists[v]];
    proper := proper union p;
  end: prop := if me = (phase - 1) mod n then single(least({v : lists[v] >= n - t})) else empty;
    lists := zero;
at 2: message (v: set, p: set) send when size(prop) > 0: (prop, proper)
  on message: locks := [w : if has(v, w) then phase else locks[w]]; got := true;
    proper := proper union p;
  end:
at 3: message (p: set) send when got and dest = (phase - 1) mod n: (proper)
  on message: acks := acks + 1; proper := proper union p;
  end: done := if size(done) = 0 and acks >= t + 1 then prop else done;
    acks := 0; got := false; prop := empty;
at 4: message (l: row, p: set) send when size({v : locks[v] > 0}) > 0: (locks, proper)
  on message:
    locks := [v : if size({w : w <> v and l[w] > 0 and l[w] >= locks[v]}) > 0
                  then 0 else locks[v]];
    proper := proper union p;
  end:""",
}


# delta is None where the plan is growing; err is None where the text is clap's own, and out where
# threads make what is printed
Setup = collections.namedtuple("Setup", "nodes faults inputs rounds delta")
Threads = collections.namedtuple("Threads", "setup is_ticking stops")
Omissions = collections.namedtuple("Omissions", "setup lines")
Row = collections.namedtuple("Row", "round node heard silent omitted state")
Answer = collections.namedtuple("Answer", "status out err")


class BadWords(Exception):
    """A bad command line; its text is the line, or nothing where clap finds the mistake."""


# Turns of a node


class Algorithm:
    """A checked program in a setup: what a node begins with, sends, and makes of its inbox."""

    def __init__(self, checked, setup):
        self.checked, self.setup, self.size = checked, setup, checked.values

    def begin(self, node):
        names = {"me": node, "n": self.setup.nodes, "t": self.setup.faults}
        names[self.checked.inputs[0]] = self.setup.inputs[node]
        given = [(it.name, it.value) for it in self.checked.variables]
        return {name: value(it, names, self.size) if it else names[name] for name, it in given}

    def names(self, state, number, node, **others):
        phase = (number - 1) // self.checked.period + 1
        fixed = {"me": node, "n": self.setup.nodes, "t": self.setup.faults}
        return {**state, **fixed, "round": number, "phase": phase, **others}

    def block(self, number):
        return self.checked.blocks[(number - 1) % self.checked.period]

    def send(self, state, number, node, to):
        """Returns the fields of a node's message, or None where it's silent."""
        block, names = self.block(number), self.names(state, number, node, dest=to)
        if not value(block.when, names, self.size):
            return None
        return [value(it, names, self.size) for it in block.sent]

    def end(self, state, number, node, inbox):
        """Returns the state after a round in which these messages came."""
        block, state = self.block(number), dict(state)
        for sender in sorted(inbox):
            fields = dict(zip((name for name, _ in block.fields), inbox[sender]))
            for name, tree in block.message:
                names = {**self.names(state, number, node), "from": sender, **fields}
                state[name] = value(tree, names, self.size)
        for name, tree in block.end:
            state[name] = value(tree, self.names(state, number, node), self.size)
        return state

    def decision(self, state):
        return min(state[self.checked.decided[0]], default=None)


# Schedules

HEADER = [
    rb"nodes ([0-9]+)",
    rb"faults ([0-9]+)",
    rb"inputs ([0-9]+(?: [0-9]+)*)",
    rb"rounds ([0-9]+)",
    rb"plan (?:known ([0-9]+)|growing)",
]
EVENT = re.compile(
    rb"(step) ([0-9]+)|(release|drop) ([0-9]+) ([0-9]+) ([0-9]+)(?: ([0-9]+))?"
    rb"|(copy) ([0-9]+) ([0-9]+) ([0-9]+) ([0-9]+)"
)


def lines(text):
    """Returns the lines of a schedule, without their ends."""
    *whole, last = text.split(b"\n")
    return [it[:-1] if it.endswith(b"\r") else it for it in whole] + ([last] if last else [])


PACE = re.compile(rb"pace (free|ticks)")
STOP = re.compile(rb"(stop) ([0-9]+) ([0-9]+)")


def read_text(text, more):
    """Returns the setup and the lines behind it, each its first word and its numbers. `more` tells
    the form that the line behind the header and so many others has, and how many there must be."""
    header, behind, number = [], [], 0
    for number, line in enumerate(lines(text), 1):
        if not line or line.startswith(b"#"):
            continue
        is_header = len(header) < len(HEADER)
        pattern = HEADER[len(header)] if is_header else more(len(behind))
        found = pattern and re.fullmatch(pattern, line)
        if not found:
            raise Refused(f"schedule 1 at {number}")
        numbers = [int(it) for it in re.findall(rb"[0-9]+", line)]
        if any(it > LARGEST for it in numbers):
            raise Refused(f"schedule 2 at {number}")
        if is_header:
            header.append(numbers)
        else:
            behind.append((line.split()[0].decode(), line, *numbers))
    if len(header) < len(HEADER) or (more is THREAD_LINES and not behind):
        raise Refused(f"schedule 1 at {number + 1}")
    (nodes,), (faults,), inputs, (rounds,), delta = header
    return Setup(nodes, faults, inputs, rounds, delta[0] if delta else None), behind


EVENTS = lambda count: EVENT
THREAD_LINES = lambda count: STOP if count else PACE
NOTHING = lambda count: None


def read_schedule(text):
    """Returns the setup and the events: ('step', node), or a kind with from, to, round, copy."""
    setup, behind = read_text(text, EVENTS)
    events = []
    for kind, _, *numbers in behind:
        events.append((kind, *numbers, *[0] * (kind != "step" and len(numbers) == 3)))
    return setup, events


def read_threads(text):
    setup, (pace, *stops) = read_text(text, THREAD_LINES)
    return Threads(setup, pace[1] == b"pace ticks", [tuple(it[2:]) for it in stops])


# The lines of an omission file


LIST, RANGE = rb"(-|[0-9]+(?:,[0-9]+)*)", rb"([0-9]+(?:-[0-9]+)?)"
OMISSIONS = [
    rb"(omit) ([0-9]+) " + RANGE + rb" ([0-9]+)",
    rb"(cut) " + LIST + b" " + RANGE,
    rb"(crash) ([0-9]+) ([0-9]+) " + LIST,
]


class Omission:
    """A line of an omission file: the nodes and the rounds that it names, and what it omits."""

    def __init__(self, kind, *parts):
        self.kind = kind
        if kind == "omit":
            receiver, rounds, sender = parts
            self.receiver, self.sender = int(receiver), int(sender)
            self.nodes = {self.receiver, self.sender}
        elif kind == "cut":
            self.nodes = self.listed = numbers_of(parts[0])
            rounds = parts[1]
        else:
            self.sender, rounds, self.listed = int(parts[0]), parts[1], numbers_of(parts[2])
            self.nodes = {self.sender} | self.listed
        first, _, last = rounds.partition("-")
        self.first, self.last = int(first), int(last or first)

    def names_messages_of(self, setup):
        is_range = 1 <= self.first <= self.last <= setup.rounds
        return is_range and all(it < setup.nodes for it in self.nodes)

    def omits(self, receiver, number, sender):
        if self.kind == "crash":
            is_late = number == self.first and receiver not in self.listed
            return sender == self.sender and (is_late or number > self.first)
        if not self.first <= number <= self.last:
            return False
        if self.kind == "omit":
            return (receiver, sender) == (self.receiver, self.sender)
        return (receiver in self.listed) != (sender in self.listed)


def numbers_of(text):
    return set() if text == "-" else {int(it) for it in text.split(",")}


def read_omissions(text):
    found = []
    for number, line in enumerate(lines(text), 1):
        if not line or line.startswith(b"#"):
            continue
        match = next(filter(None, (re.fullmatch(it, line) for it in OMISSIONS)), None)
        if not match:
            raise Refused(f"schedule 1 at {number}")
        if any(int(it) > LARGEST for it in re.findall(rb"[0-9]+", line)):
            raise Refused(f"schedule 2 at {number}")
        found.append(Omission(*(it.decode() for it in match.groups())))
    return found


def check_omissions(setup, omissions):
    """Refuses the first line that names no message of the run."""
    for at, it in enumerate(omissions):
        if not it.names_messages_of(setup):
            raise Refused(f"run 3 at {at}")


def check_run(checked, setup, events, correct=()):
    """Refuses a setup that isn't lawful, then the first event that names what it hasn't."""
    is_lawful = (
        1 <= setup.nodes <= NODES
        and setup.faults <= FAULTS
        and 1 <= setup.rounds <= ROUNDS
        and (setup.delta is None or 1 <= setup.delta <= DELTA)
        and len(setup.inputs) == setup.nodes
        and all(it < checked.values for it in setup.inputs)
        and all(it < setup.nodes for it in correct)
    )
    if not is_lawful:
        raise Refused("run 1")
    for at, (kind, *numbers) in enumerate(events):
        if kind == "step":
            if numbers[0] >= setup.nodes:
                raise Refused(f"run 2 at {at}")
            continue
        sender, to, number, copy = numbers
        is_known = max(sender, to) < setup.nodes and 1 <= number <= setup.rounds
        if not is_known or not int(kind == "copy") <= copy <= 3:
            raise Refused(f"run 3 at {at}")


class Run:
    """A schedule's run: the states of closed rounds and who was heard, by the places of events."""

    def __init__(self, algorithm, events):
        self.algorithm, self.setup = algorithm, algorithm.setup
        self.nodes = range(self.setup.nodes)
        self.steps = [[] for _ in self.nodes]  # the places of each node's steps
        self.network = collections.defaultdict(list)  # for each message: place, kind and copy
        for place, (kind, *numbers) in enumerate(events):
            if kind == "step":
                self.steps[numbers[0]].append(place)
            else:
                self.network[tuple(numbers[:3])].append((place, kind, numbers[3]))
        self.received = [self.receives(it) for it in self.nodes]
        self.received_at = [[place for _, place, _ in it] for it in self.received]
        self.states = {(node, 0): algorithm.begin(node) for node in self.nodes}
        self.rows = [self.close(*it) for it in self.due()]

    def length(self, number):
        """How many receives a round has."""
        return number if self.setup.delta is None else self.setup.delta

    def start(self, number):
        """Returns how many steps a node takes before a round."""
        delta = self.setup.delta
        receives = number * (number - 1) // 2 if delta is None else (number - 1) * delta
        return (number - 1) * self.setup.nodes + receives

    def receives(self, node):
        """Returns the step number, place and round of each receive of a node."""
        found, count = [], len(self.steps[node])
        for number in range(1, self.setup.rounds + 1):
            first, after = self.start(number) + self.setup.nodes, self.start(number + 1)
            if first >= count:
                break
            steps = range(first, min(after, count))
            found += [(step, self.steps[node][step], number) for step in steps]
        return found

    def due(self):
        """Yields the rounds that nodes have taken all steps of, by round and then by node."""
        for number in range(1, self.setup.rounds + 1):
            nodes = [it for it in self.nodes if len(self.steps[it]) >= self.start(number + 1)]
            if not nodes:
                break
            yield from ((number, it) for it in nodes)

    def sent_at(self, sender, to, number):
        """Returns the place of a send slot, or None where it wasn't taken."""
        step = self.start(number) + to
        return self.steps[sender][step] if step < len(self.steps[sender]) else None

    def released(self, sender, to, number):
        """Returns the places at which a copy of a message was released."""
        sent, found = self.sent_at(sender, to, number), []
        if sent is None:
            return found
        after = [it for it in self.network[sender, to, number] if it[0] > sent]
        gone = [place for place, kind, copy in after if kind != "copy" and copy == 0][:1]
        for copy in range(4):
            made = [place for place, kind, of in after if kind == "copy" and of == copy][:1]
            if copy == 0:
                made = [sent]
            elif not made or (gone and gone[0] < made[0]):
                continue
            fates = [it for it in after if it[0] > made[0] and it[1] != "copy" and it[2] == copy]
            found += [place for place, kind, _ in fates[:1] if kind == "release"]
        return found

    def is_carried(self, sender, to, number):
        """Whether the receive that took a copy was in the message's round or one shortly before."""
        for place in self.released(sender, to, number):
            behind = bisect.bisect(self.received_at[to], place)
            if behind < len(self.received[to]):
                if number - EARLY <= self.received[to][behind][2] <= number:
                    return True
        return False

    def sends(self, sender, to, number):
        return self.algorithm.send(self.states[sender, number - 1], number, sender, to)

    def close(self, number, node):
        inbox, silent = {}, []
        for sender in self.nodes:
            if self.sent_at(sender, node, number) is None:
                continue
            message = self.sends(sender, node, number)
            if message is None:
                silent.append(sender)
            elif self.is_carried(sender, node, number):
                inbox[sender] = message
        omitted = [it for it in self.nodes if it not in inbox and it not in silent]
        state = self.algorithm.end(self.states[node, number - 1], number, node, inbox)
        self.states[node, number] = state
        return Row(number, node, sorted(inbox), silent, omitted, state)

    # Reports and verdicts

    def report(self):
        out = []
        for it in self.rows:
            state = " ".join(f"{name}={shown(it.state[name])}" for name in it.state)
            heard, silent, omitted = map(listed, (it.heard, it.silent, it.omitted))
            decision = shown_decision(self.algorithm.decision(it.state))
            out.append(
                f"round {it.round} node {it.node} heard {heard} silent {silent} omitted {omitted} "
                f"state {state} decision {decision}\n"
            )
        for node in self.nodes:
            closed = sum(it.node == node for it in self.rows)
            out.append(f"node {node} steps {self.count(node)} rounds {closed}\n")
        return "".join(out)

    def count(self, node):
        return len(self.steps[node])

    def decided(self):
        """Says what all decisions of the report come to."""
        found = {self.algorithm.decision(it.state) for it in self.rows} - {None}
        return "split" if len(found) > 1 else shown_decision(next(iter(found), None))

    def told(self, options):
        return f"decided {self.decided()}\n" if "decided" in options else ""

    def verdict(self, events, correct, delta, gst):
        lockstep = yes(self.is_lockstep(events, correct))
        bound = yes(self.is_bounded(correct, delta, gst))
        return f"lockstep {lockstep} bound {bound} clear {self.clear(delta, gst)}\n"

    def is_lockstep(self, events, correct):
        taken = {it: 0 for it in correct}
        for kind, node, *_ in events:
            if kind == "step" and node in taken:
                if any(it < taken[node] for it in taken.values()):
                    return False
                taken[node] += 1
        return True

    def is_bounded(self, correct, delta, gst):
        pairs = ((sender, to) for sender in correct for to in correct)
        return all(self.keeps_bound(*it, delta, gst) for it in pairs)

    def keeps_bound(self, sender, to, delta, gst):
        for number in range(1, self.setup.rounds + 1):
            step = self.start(number) + to
            if step >= len(self.steps[sender]):
                break
            if step < gst or self.sends(sender, to, number) is None:
                continue
            sent = self.steps[sender][step]
            late = (it[1] for it in self.received[to] if it[0] >= step + delta and it[1] > sent)
            before = next(late, None)
            if before is not None and all(it > before for it in self.released(sender, to, number)):
                return False
        return True

    def clear(self, delta, gst):
        rounds = range(1, ROUNDS + 1)
        found = (it for it in rounds if self.start(it) >= gst and self.length(it) >= delta)
        return next(found, "none")


def yes(is_so):
    return "yes" if is_so else "no"


def listed(nodes):
    return ",".join(map(str, nodes)) or "-"


def shown_decision(decision):
    return "-" if decision is None else str(decision)


def shown(given):
    if isinstance(given, bool):
        return "true" if given else "false"
    if isinstance(given, frozenset):
        return "{" + ",".join(map(str, sorted(given))) + "}"
    if isinstance(given, tuple):
        return "[" + ",".join(f"{at}:{it}" for at, it in enumerate(given) if it) + "]"
    return str(given)


# Commands


NEEDED = {
    "check": [],
    "run": ["schedule"],
    "judge": ["schedule", "correct", "delta", "gst"],
    "threads": ["setup", "trace"],
    "lockstep": ["header", "correct", "delta", "gst"],
    "realise": ["header", "omissions"],
    "rounds": ["header", "omissions"],
}
ALLOWED = {
    "check": ["format"],
    "judge": ["format"],
    "lockstep": ["delays", "orders", "ticks", "omissions"],
    "run": ["format", "by", "vars"],
    "rounds": ["format", "by", "vars"],
}
REPEATED = {"lockstep": {"stop": 2, "delay": 4}}  # (how many values each use has)
FLAGS = {
    "run": ("decided", "changed"),
    "rounds": ("decided", "changed"),
    "threads": ("decided",),
}


def read_words(words):
    """Returns the command, the source and the options, by name, or refuses the command line."""
    if not words or words[0] not in NEEDED:
        raise BadWords
    command, rest = words[0], collections.deque(words[1:])
    needed = NEEDED[command]
    allowed, repeated = needed + ALLOWED.get(command, []), REPEATED.get(command, {})
    sources, options, is_behind = [], {}, False
    while rest:
        word = rest.popleft()
        name, equals, given = word[2:].partition("=")
        if is_behind or not word.startswith("-") or word == "-":
            sources.append(word)
        elif word == "--":
            is_behind = True
        elif word[:2] == "--" and word[2:] in FLAGS.get(command, ()) and word[2:] not in options:
            options[word[2:]] = ""
        elif word.startswith("--") and name in repeated:
            values = [given] if equals else []
            while not equals and len(values) < repeated[name] and rest and is_value(rest[0]):
                values.append(rest.popleft())
            if len(values) != repeated[name]:
                raise BadWords
            options.setdefault(name, []).append(values)
        elif word.startswith("--") and name in allowed and name not in options:
            if not equals and (not rest or not is_value(rest[0])):
                raise BadWords
            options[name] = given if equals else rest.popleft()
        else:
            raise BadWords
    if len(sources) != 1 or any(it not in options for it in needed):
        raise BadWords
    check_forms(command, sources[0], options)
    return command, sources[0], options


def is_value(word):
    return not word.startswith("-") or word == "-"


NO_VARIABLE = "LIST of --vars is names of the program's variables with commas between them"
NO_LIST = "error: LIST is numbers of 0 to 4294967295 with commas between them"


def is_number(text):
    return bool(re.fullmatch(r"[0-9]+", text)) and int(text) <= LARGEST


def is_list(text):
    return all(map(is_number, text.split(",")))


def check_forms(command, source, options):
    """Refuses standard input for two files, and a value that hasn't its option's form, the source
    first."""
    if options.get("header") == options.get("omissions") == "-":
        raise BadWords(
            "error: only one of `--header` and `--omissions` can be `-`, standard input"
        )
    if source.startswith("@") and not re.fullmatch(r"@[A-Za-z_][A-Za-z0-9_]*:[0-9]+", source):
        raise BadWords("error: SOURCE is a file, or `@`, a name, `:` and digits")
    has_report = command in ("run", "rounds")
    formats = ["text", "json"] + ["table", "summary", "omissions"] * has_report
    if has_report and options.get("format", "text") not in formats:
        raise BadWords("error: `--format` is `text`, `json`, `table`, `summary` or `omissions`")
    if options.get("by", "round") not in ("round", "node"):
        raise BadWords("error: `--by` is `round` or `node`")
    if not is_list(options.get("correct", "0")):
        raise BadWords(NO_LIST)
    delta = options.get("delta", "1")
    if not is_number(delta) or not 1 <= int(delta) <= DELTA:
        raise BadWords("error: `--delta` is a number of 1 to 1024")
    if not is_number(options.get("gst", "0")):
        raise BadWords("error: `--gst` is a number of 0 to 4294967295")
    if not is_list(options.get("delays", "0")) or not is_list(options.get("orders", "0")):
        raise BadWords(NO_LIST)
    if not is_number(options.get("ticks", "0")):
        raise BadWords("error: `--ticks` is a number of 0 to 4294967295")
    if not all(is_number(it) for use in changes_in(options) for it in use):
        raise BadWords("error: `--stop` and `--delay` have numbers of 0 to 4294967295")
    if options.get("format", "text") not in formats:
        raise BadWords("error: `--format` is `text` or `json`")


def changes_in(options):
    return options.get("stop", []) + options.get("delay", [])


def text_of(content, limit, too_long):
    """Returns a file's text; no more than the limit and a byte is ever read of it."""
    if content is None:
        raise Refused("file")
    try:
        codecs.getincrementaldecoder("utf-8")().decode(content[: limit + 1], len(content) <= limit)
    except UnicodeDecodeError:
        raise Refused("file") from None
    if len(content) > limit:
        raise Refused(too_long)
    return content


def library_program(source, setup):
    """Returns a program of the library, for a setup or, with none, for one node and no fault."""
    name, _, digits = source[1:].partition(":")
    if name not in LIBRARY:
        raise Refused("library 3")
    nodes, faults = (setup.nodes, setup.faults) if setup else (1, 0)
    is_large = name == "dls1" and not (1 <= nodes <= NODES and faults <= FAULTS)
    if not 1 <= int(digits) <= VALUES or is_large:
        raise Refused("library 2")
    if name == "dls1" and nodes < 2 * faults + 1:
        raise Refused("library 1")
    return Checked(Parser(LIBRARY[name].replace("K", digits, 1).encode()).program())


def made_header(name):
    """Returns the text of a header whose name is `@`, its nodes, faults and rounds; else None."""
    numbers = re.fullmatch("@([0-9]+):([0-9]+):([0-9]+)", name)
    if not numbers or any(int(it) > LARGEST for it in numbers.groups()):
        return None
    nodes, faults, rounds = map(int, numbers.groups())
    inputs = " 0" * max(1, min(nodes, NODES + 1))  # (too many nodes have enough inputs)
    lines = f"nodes {nodes}", f"faults {faults}", f"inputs{inputs}", f"rounds {rounds}"
    return "".join(f"{it}\n" for it in (*lines, "plan known 1")).encode()


def opened(options, files):
    """Returns what the text says that a command reads beside its source: the setup, and what
    follows the header."""
    kind = next(it for it in READERS if it in options)
    name, read = options[kind], READERS[kind]
    text = files.get(name)
    if text is None and kind == "header":
        text = made_header(name)
    setup, behind = read(text_of(text, SCHEDULE_LIMIT, "schedule 3"))
    if "omissions" in options:
        text = files.get(options["omissions"])
        behind = read_omissions(text_of(text, SCHEDULE_LIMIT, "schedule 3"))
    return setup, behind


def threads_of(text):
    threads = read_threads(text)
    return threads.setup, threads


READERS = {
    "schedule": read_schedule,
    "setup": threads_of,
    "header": lambda text: read_text(text, NOTHING),
}


def program_and_run(command, source, options, files):
    """Returns the program, and for another command than `check` the setup and what follows it."""
    checked, setup, behind = None, None, []
    if not source.startswith("@"):
        text = text_of(files.get(source), SOURCE_LIMIT, "source 4")
        checked = Checked(Parser(text).program())
    if command != "check":
        setup, behind = opened(options, files)
    return checked or library_program(source, setup), setup, behind


def carried_out(words, files):
    """Returns what a command prints on standard output, or None where threads make it. `files` has
    no content for a name that can't be read; `-` is standard input."""
    command, source, options = read_words(words)
    checked, setup, behind = program_and_run(command, source, options, files)
    if command == "check":
        declared = {
            "values": checked.values,
            "period": checked.period,
            "variables": len(checked.variables),
        }
        return object_text(declared) if is_json(options) else words_text("ok", declared)
    correct = sorted({int(it) for it in options.get("correct", "").split(",") if it})
    if command == "threads":
        check_run(checked, setup, [], [node for node, _ in behind.stops])
        is_read = options["trace"] in {source, options["setup"]} - {"-"}
        if is_read or "/" in options["trace"]:  # (there are no folders)
            raise Refused("write")
        return None
    if command in ("realise", "rounds"):
        check_run(checked, setup, [])
        check_omissions(setup, behind)
        run = Rounds(Algorithm(checked, setup), behind)
        return run.schedule() if command == "realise" else formed(run, checked, options)
    if command == "lockstep":
        check_run(checked, setup, [], correct)
        check_omissions(setup, behind)
        return lockstep(Algorithm(checked, setup), correct, behind, options)
    check_run(checked, setup, behind, correct)
    run = Run(Algorithm(checked, setup), behind)
    if command == "judge":
        text = run.verdict(behind, correct, int(options["delta"]), int(options["gst"]))
        return verdict_object(text) if is_json(options) else text
    return formed(run, checked, options)


def is_json(options):
    return options.get("format") == "json"


def object_text(members):
    """Returns a line of JSON."""
    return json.dumps(members, separators=(",", ":")) + "\n"


def words_text(first, members):
    return " ".join([first, *(f"{name} {number}" for name, number in members.items())]) + "\n"


def verdict_object(text):
    """Returns a verdict as a line of JSON."""
    words = text.split()
    values = {"yes": True, "no": False, "none": None}
    told = zip(words[::2], words[1::2])
    return object_text({name: values[it] if it in values else int(it) for name, it in told})


def places_of(names, options):
    """Returns the places of the variables that a table has, or none if it has all."""
    if "vars" not in options:
        return None
    asked = options["vars"].split(",")
    if not set(asked) <= set(names):
        raise Refused(f"table: {NO_VARIABLE}")
    return [names.index(it) for it in asked]


def formed(run, checked, options):
    """Returns the report in the form that the options ask for."""
    plain, form = run.report(), options.get("format", "text")
    if form == "text":
        return plain + run.told(options)
    report = reading_data.report_of(plain)
    if form == "json":
        all_decided = {"-": "null", "split": '"split"'}.get(run.decided(), run.decided())
        last = f'{{"decided":{all_decided}}}\n' if "decided" in options else ""
        return reading_data.json_text(report) + last
    if form == "summary":
        return reading_data.summary_text(report) + run.told(options)
    if form == "omissions":
        comment = "# " if "decided" in options else ""
        return reading_data.omissions_text(report) + comment + run.told(options)
    places = places_of([it.name for it in checked.variables], options)
    by, changed = options.get("by", "round"), "changed" in options
    return reading_data.table_text(report, by, places, changed) + run.told(options)


# Runs by threads


def threads_complaint(words, files, out, trace):
    """Returns what is wrong with a run by threads that has printed this and made this trace, or
    nothing. The network lets each message go as soon as it can, so each is released by its trace's
    end but those that were sent after its last turn."""
    command, source, options = read_words(words)
    checked, setup, threads = program_and_run(command, source, options, files)
    try:
        traced, events = read_schedule(trace)
        check_run(checked, traced, events)
    except Refused as why:
        return f"the trace is refused: {why}"
    run = Run(Algorithm(checked, setup), events)
    wanted = run.report() + run.told(options)
    stops, every = dict(threads.stops), run.start(setup.rounds + 1)
    steps = [min(every, stops.get(node, every)) for node in run.nodes]
    stayed = [node for node in run.nodes if steps[node] == every]
    if traced != setup:
        return "the trace is of another setup"
    if [len(it) for it in run.steps] != steps:
        return "a node took other steps than its stop allows"
    if out != wanted.encode():
        return "the report isn't the trace's"
    if any(kind in ("drop", "copy") for kind, *_ in events):
        return "the network lost or copied a message"
    if threads.is_ticking and not (
        run.is_lockstep(events, stayed) and run.is_bounded(stayed, 1, 0)
    ):
        return "the ticks weren't kept"
    return ""


# Runs in rounds


class Rounds(Run):
    """A run in rounds that omits what the lines of an omission file say, with no schedule."""

    def __init__(self, algorithm, omissions):
        self.algorithm, self.setup, self.omissions = algorithm, algorithm.setup, omissions
        self.nodes = range(self.setup.nodes)
        self.ends = [self.end_of(it) for it in self.nodes]
        self.states = {(node, 0): algorithm.begin(node) for node in self.nodes}
        numbers = range(1, self.setup.rounds + 1)
        rows = [self.close(number, node) for number in numbers for node in self.nodes]
        self.rows = [it for it in rows if self.start(it.round + 1) <= self.ends[it.node]]

    def end_of(self, node):
        """Returns how many steps a node takes: with a crash, its sends of that round are last."""
        crashes = [it.first for it in self.omissions if it.kind == "crash" and it.sender == node]
        if crashes:
            return self.start(min(crashes)) + self.setup.nodes
        return self.start(self.setup.rounds + 1)

    def count(self, node):
        return self.ends[node]

    def sent_at(self, sender, to, number):
        step = self.start(number) + to
        return step if step < self.ends[sender] else None

    def is_carried(self, sender, to, number):
        return not any(it.omits(to, number, sender) for it in self.omissions)

    def schedule(self):
        """Returns the schedule that goes round by round and omits the same."""
        events = []
        for number in range(1, self.setup.rounds + 1):
            first, sent = self.start(number), self.start(number) + self.setup.nodes
            events += self.steps_of(first, sent)
            for to in self.nodes:
                carried = (it for it in self.nodes if self.is_carried(it, to, number))
                events += [("release", sender, to, number) for sender in carried]
            events += self.steps_of(sent, self.start(number + 1))
        return schedule_text(self.setup, events)

    def steps_of(self, first, after):
        for node in self.nodes:
            yield from [("step", node)] * max(0, min(after, self.ends[node]) - first)


# Runs in lockstep


def changes(setup, correct, omissions, options, run):
    """Returns the stops of nodes and the delays of single messages, by node and by message, or
    refuses one that the run can't have."""
    crashes = {it.sender for it in omissions if it.kind == "crash"}
    stops = {it: Rounds(run.algorithm, omissions).ends[it] for it in crashes}
    stops.update((int(node), int(tick)) for node, tick in options.get("stop", []))
    delays = [tuple(map(int, it)) for it in options.get("delay", [])]
    is_run = all(max(j, i) < setup.nodes and 1 <= r <= setup.rounds for j, i, r, _ in delays)
    if not is_run or any(it >= setup.nodes or it in correct for it in stops):
        raise Refused("run 1")
    return stops, {it[:3]: max(1, it[3]) for it in delays}


def lockstep(algorithm, correct, omissions, options):
    """Returns the schedule of a run in lockstep, event by event in the order of their keys."""
    setup, numbers = algorithm.setup, lambda name: [int(it) for it in options[name].split(",")]
    delays = numbers("delays") if "delays" in options else []
    orders = numbers("orders") if "orders" in options else []
    delta, gst = int(options["delta"]), int(options["gst"])
    run = Run(algorithm, [])
    ticks = int(options.get("ticks", run.start(setup.rounds + 1)))
    if len(delays) > TABLE or len(orders) > TABLE:
        raise Refused("run 1")
    stops, own = changes(setup, correct, omissions, options, run)
    stops.update((it, ticks) for it in correct)
    events, keyed, serial = [], [], 0
    for tick in range(ticks):
        first = orders[tick % len(orders)] % setup.nodes if orders else 0
        due = sorted(it for it in keyed if it[0] == tick)
        keyed = [it for it in keyed if it[0] > tick]
        for _, _, (sender, to, number) in due:
            if not any(it.omits(to, number, sender) for it in omissions):
                events.append(("release", sender, to, number))
        going = [it for it in stops if tick < stops[it]]
        for node in sorted(going, key=lambda it: (it + setup.nodes - first) % setup.nodes):
            sent = slot_of(run, node, tick, events)
            if sent:
                delay = max(1, delays[serial % len(delays)]) if delays else 1
                due_in = own.get(sent, min(delay, delta) if tick >= gst else delay)
                keyed.append((tick + due_in, serial, sent))
                serial += 1
            events.append(("step", node))
    return schedule_text(setup, events)


def schedule_text(setup, events):
    plan = "growing" if setup.delta is None else f"known {setup.delta}"
    head = [f"nodes {setup.nodes}", f"faults {setup.faults}"]
    head += ["inputs " + " ".join(map(str, setup.inputs)), f"rounds {setup.rounds}", f"plan {plan}"]
    return "".join(f"{it}\n" for it in head + [" ".join(map(str, it)) for it in events])


def slot_of(run, node, step, events):
    """Returns the sender, receiver and round of the message that a node's step sends, or None where
    it sends none."""
    for number in range(1, run.setup.rounds + 1):
        to = step - run.start(number)
        if 0 <= to < run.setup.nodes:
            so_far = Run(run.algorithm, [(*it, 0) if it[0] != "step" else it for it in events])
            spoken = so_far.algorithm.send(so_far.states[node, number - 1], number, node, to)
            return None if spoken is None else (node, to, number)
    return None


def answer(words, files):
    """Returns what the program answers to its words, with these files."""
    try:
        out = carried_out(words, files)
        return Answer(0, None if out is None else out.encode(), b"")
    except BadWords as why:
        return Answer(2, b"", f"{why}\n".encode() if str(why) else None)
    except Refused as why:
        return Answer(1, b"", f"refused {why}\n".encode())
