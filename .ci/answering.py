"""What `roundc explore` answers, by a second reading in Python that shares nothing with the crates.

It goes level by level through the states of all nodes, for one pattern of failures after the other,
as .ci/exploring.py does, but notes what it has computed: a node's next states are computed once for
each state and messages sent to it, and level states that leave each node the same next states are
gone on from once. So it answers for four nodes too. Whether a property holds in all rounds is told
by whether a round adds anything, as there.
"""
import collections
import hashlib
import itertools

import exploring
import language
import reading

PROPERTIES = ("agreement", "validity", "final", "termination", "always")
Asked = collections.namedtuple("Asked", "question names formula is_any part", defaults=[None])


class Turns:
    """What nodes send and end rounds with; states and messages are numbers."""

    def __init__(self, checked, setup, formula):
        self.algorithm = reading.Algorithm(checked, setup)
        self.formula = formula
        self.states, self.numbers = [], {}
        self.messages, self.spoken, self.ended = [None], {}, {}
        self.said = {None: 0}
        self.decisions, self.flags = [], {}
        self.rows = {}

    def choices(self, rows):
        """Returns a list of the sets of senders that may be missed, the same for the same sets."""
        return self.rows.setdefault(frozenset(rows), tuple(rows))

    def number_of(self, state):
        key = tuple(state.values())
        if key not in self.numbers:
            self.numbers[key] = len(self.states)
            self.states.append(state)
            decision = self.algorithm.decision(state)
            self.decisions.append(0 if decision is None else 1 << decision)
        return self.numbers[key]

    def parts(self, states, read):
        """Returns what the states have of these variables."""
        return tuple(exploring.frozen({it: self.states[state][it] for it in read})
                     for state in states)

    def begins(self, inputs):
        """Returns the states of all nodes with these inputs before round 1."""
        algorithm = self.algorithm
        algorithm.setup = algorithm.setup._replace(inputs=list(inputs))
        return tuple(self.number_of(algorithm.begin(it)) for it in range(len(inputs)))

    def message(self, number, sender, state, to):
        key = number, sender, state, to
        if key not in self.spoken:
            fields = self.algorithm.send(self.states[state], number, sender, to)
            said = None if fields is None else tuple(fields)
            if said not in self.said:
                self.said[said] = len(self.messages)
                self.messages.append(said)
            self.spoken[key] = self.said[said]
        return self.spoken[key]

    def ends(self, number, node, state, inbox, choices):
        """Returns the states in which a node can end a round, of which these messages are sent to
        it and the senders of one of the choices are missed."""
        key = number, node, state, inbox, choices
        if key not in self.ended:
            inboxes = {tuple((j, it) for j, it in enumerate(inbox) if it and j not in missed)
                       for missed in choices}
            ends = (self.algorithm.end(self.states[state], number, node,
                                       {j: self.messages[it] for j, it in heard})
                    for heard in inboxes)
            self.ended[key] = tuple(sorted({self.number_of(it) for it in ends}))
        return self.ended[key]

    def holds(self, number, node, state):
        """Returns whether the formula is true of a node's state after a round."""
        key = number, node, state
        if self.formula and key not in self.flags:
            names = self.algorithm.names(self.states[state], number, node)
            self.flags[key] = language.value(self.formula, names, self.algorithm.size)
        return not self.formula or self.flags[key]


# What a run came to: its states, the values decided as bits, whether each decision was kept, and
# whether the formula held.
Run = collections.namedtuple("Run", "states decided is_kept holds")


def groups(turns, number, runs, choices, counting):
    """Returns what the runs of a level can go on to: the ends of each node, the bits that each
    decided last, and what the run came to, each once."""
    nodes, found = range(len(counting)), set()
    for states, decided, is_kept, holds in runs:
        ends = tuple(turns.ends(number, node, states[node], tuple(
            turns.message(number, it, states[it], node) for it in nodes), choices)
            for node in nodes)
        last = tuple(turns.decisions[it] if number > 1 and is_kept else 0 for it in states)
        found.add((ends, last, decided, is_kept, holds))
    return found


def follow(turns, number, runs, choices, counting):
    """Returns the runs of the next level."""
    after = set()
    for ends, last, decided, is_kept, holds in groups(turns, number, runs, choices, counting):
        heads = {Run((), decided, is_kept, holds)}
        for node, (states, was) in enumerate(zip(ends, last)):
            if not counting[node]:
                heads = {it._replace(states=(*it.states, state))
                         for it in heads for state in states}
                continue
            facts = [(state, turns.decisions[state],
                      was in (0, turns.decisions[state]), turns.holds(number, node, state))
                     for state in states]
            heads = {Run((*it.states, state), it.decided | chosen, it.is_kept and keeps,
                         it.holds and stands)
                     for it in heads for state, chosen, keeps, stands in facts}
        after |= heads
    return after


def broken(turns, setup, pattern, number, runs):
    """Returns the properties that fail in one of the runs of so many rounds."""
    inputs = sum(1 << it for it in set(turns.algorithm.setup.inputs))
    correct = [node for node, it in enumerate(pattern) if it is None]
    tests = {
        "agreement": lambda it: it.decided & (it.decided - 1),
        "validity": lambda it: it.decided & ~inputs,
        "final": lambda it: not it.is_kept,
        "termination": lambda it: number == setup.rounds and not all(
            turns.decisions[it.states[node]] for node in correct),
        "always": lambda it: not it.holds,
    }
    return {name for name, test in tests.items() if any(map(test, runs))}


class Growth:
    """What runs have come to that matters to a property, and whether a round added nothing."""

    def __init__(self, name, read, start, period):
        self.name, self.read, self.start, self.period = name, read, start, period
        self.seen, self.is_over = {}, False

    def add(self, number, runs, turns):
        """Adds what the runs come to after a round."""
        if self.is_over or number < self.start:
            return
        now = {exploring.seen_of(self.name, turns.parts(it.states, self.read), it) for it in runs}
        before = self.seen.setdefault(number % self.period, set())
        self.is_over = number > self.start and now <= before
        before |= now


def first_failures(turns, setup, asked, pattern, inputs, growths):
    """Returns the first round in which each property fails in a run of these inputs. What runs come
    to is added to the growths."""
    first = {}
    runs = {Run(turns.begins(inputs), 0, True, True)}
    for number in range(1, setup.rounds + 1):
        rows = exploring.rows(setup, asked.question, pattern, number)
        if not rows:
            return {}
        counting = [exploring.counts(it, number) for it in pattern]
        choices = turns.choices(rows)
        runs = follow(turns, number, runs, choices, counting)
        for name in broken(turns, setup, pattern, number, runs):
            first.setdefault(name, number)
        for growth in growths:
            growth.add(number, runs, turns)
    return first


def question_of(source, setup, options):
    """Returns the name of a question, of whose inputs a part is asked about: the digest of all else
    that the answers depend on."""
    asked = options.get("check", "agreement,validity,final").split(",")
    checks = " ".join(f"{it} {'yes' if it in asked else 'no'}" for it in PROPERTIES[:-1])
    always = options.get("always")
    always = "-" if always is None else f"{len(always.encode())} {always}"
    text = (
        f"nodes {setup.nodes} faults {setup.faults} rounds {setup.rounds}"
        f" fail {options.get('faults', 'none')} clear {int(options.get('clear', 0)) or '-'}"
        f" hears {int(options.get('hears', 0))} {checks} always {always}\n"
    )
    return hashlib.sha256(text.encode() + source).hexdigest()


def answers(checked, setup, asked):
    """Returns the first round in which each property that is asked fails in a run, or ALL if it
    holds in any number of rounds."""
    turns, first = Turns(checked, setup, asked.formula), {}
    safety = set(exploring.SAFETY)
    is_one_search = len(safety & set(asked.names)) > 1
    lasting = exploring.can_last(asked.question, asked.formula)
    lasting &= {*asked.names, "safety"} if is_one_search else set(asked.names)
    read = {it: exploring.names_read(checked, it, asked.formula) for it in lasting}
    lasting = {it for it in lasting if exploring.is_stationary(checked, read[it])}
    start = exploring.first_alike(asked.question)
    every = itertools.product(range(checked.values), repeat=setup.nodes)
    if asked.part:
        number, count = asked.part
        every = itertools.islice(every, number - 1, None, count)
    for inputs in every if asked.is_any else [setup.inputs]:
        for pattern in exploring.patterns(setup, asked.question):
            growths = [Growth(it, read[it], start, checked.period) for it in lasting]
            failures = first_failures(turns, setup, asked, pattern, inputs, growths)
            for name, number in failures.items():
                first[name] = min(number, first.get(name, number))
            lasting = {it.name for it in growths if it.is_over}
    if is_one_search and not safety & first.keys():
        lasting = lasting | safety if "safety" in lasting else lasting - safety
    found = {**dict.fromkeys(lasting, exploring.ALL), **first}
    return {name: found.get(name) for name in PROPERTIES if name in asked.names}
