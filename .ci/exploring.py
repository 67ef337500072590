"""What every run of a program in rounds comes to, by a second reading in Python.

It goes level by level through the states of all nodes that runs come to under the tables that a
question allows, for one list of inputs and one pattern of failures after the other, or, for small
runs, through the tables themselves. It shares nothing with the crates.

A property holds in all rounds if a round adds no state to those of earlier rounds of its place in
the period, in each search: what follows has been seen then. That needs rounds that are alike, so
that the program says neither `round` nor `phase`, no node crashes, and the network is clear already
or stays as it is.

usage: exploring.py SOURCE NODES FAULTS ROUNDS [INPUT ..] [--faults none|omission|crash]
       [--clear C] [--hears M] [--check LIST] [--always EXPRESSION] [--tables]

Without inputs, each list of inputs is tried. With --tables, the tables are.
"""
import argparse
import collections
import itertools
import os
import sys

sys.path.insert(0, os.path.dirname(os.path.realpath(__file__)))
import language  # noqa: E402
import reading  # noqa: E402

Setup = collections.namedtuple("Setup", "nodes faults inputs rounds")
Question = collections.namedtuple("Question", "faults clear hears")
SAFETY = ("agreement", "validity", "final")
PROPERTIES = (*SAFETY, "safety", "termination", "always")
ALL = "all"  # the answer to a property that holds in any number of rounds
# What matters to each property of a run that has come to some states: what was decided, whether
# decisions were kept, and whether the formula was true. Termination is asked after the last round.
SEEN = {"agreement": [1], "validity": [1], "final": [2], "safety": [1, 2], "always": [3]}
# A failure is None, "omits", or the round of a crash.


def frozen(given):
    """Returns a state or value in a form that can be a member of a set."""
    if isinstance(given, dict):
        return tuple((name, frozen(it)) for name, it in sorted(given.items()))
    return tuple(map(frozen, given)) if isinstance(given, list) else (
        frozenset(given) if isinstance(given, set) else given)


def patterns(setup, question):
    """Yields every pattern of failures: one of each node."""
    kinds = {"none": [], "omission": ["omits"], "crash": [*range(1, setup.rounds + 1)]}
    for pattern in itertools.product([None, *kinds[question.faults]], repeat=setup.nodes):
        if sum(it is not None for it in pattern) <= setup.faults:
            yield pattern


def rows(setup, question, pattern, number):
    """Returns the sets of senders that a node may miss in a round."""
    unclear = question.clear is None or number < question.clear
    may = {j for j, it in enumerate(pattern)
           if unclear or it == "omits" or (isinstance(it, int) and it <= number)}
    must = {j for j, it in enumerate(pattern) if isinstance(it, int) and it < number}
    sets = itertools.chain.from_iterable(
        itertools.combinations(range(setup.nodes), count) for count in range(setup.nodes + 1))
    return [missed for missed in map(frozenset, sets)
            if must <= missed <= may and len(missed) + question.hears <= setup.nodes]


def counts(failure, number):
    return not isinstance(failure, int) or number < failure


def says_round(tree):
    """Returns whether an expression says which round it is."""
    return tree.form in ("round", "phase") or any(map(says_round, tree.parts))


def names_in(tree):
    """Yields the names that an expression says."""
    yield tree.name
    for part in tree.parts:
        yield from names_in(part)


def names_read(checked, name, formula):
    """Returns the variables on which decisions, messages or the formula of a property depend."""
    read = set(checked.decided) | set(names_in(formula) if name == "always" and formula else ())
    for block in checked.blocks:
        for tree in (block.when, *block.sent):
            read |= set(names_in(tree))
    while True:
        more = {it for block in checked.blocks for target, tree in block.message + block.end
                if target in read for it in names_in(tree)}
        if more <= read:
            return read & set(checked.types)
        read |= more


def is_stationary(checked, read):
    """Returns whether no expression that matters to these variables says which round it is."""
    said = (it for block in checked.blocks for it in (block.when, *block.sent, *(
        tree for target, tree in block.message + block.end if target in read)))
    return not any(map(says_round, said))


def can_last(question, formula):
    """Returns the properties that can hold in all rounds: those that ask the same of each."""
    if question.faults == "crash":
        return set()
    return set(SEEN) - ({"always"} if formula and says_round(formula) else set())


def first_alike(question):
    """Returns the first round after which all rounds of one place in the period are alike."""
    return 1 if question.clear is None else max(1, question.clear - 1)


def seen_of(name, states, run):
    """Returns what matters to a property of a run: these states, and what of the rest does."""
    return states, *(run[it] for it in SEEN[name])


def lasts(name, read, levels, first, period):
    """Returns whether a round adds nothing to what runs came to after earlier ones of its place,
    from the first on; the levels are those before round 1 and after each round."""
    def part(run):
        return tuple(tuple(it for it in state if it[0] in read) for state in run[0])

    seen = [{seen_of(name, part(it), it) for it in level} for level in levels]
    for number in range(first + 1, len(seen)):
        before = (seen[it] for it in range(first, number) if (number - it) % period == 0)
        if seen[number] <= set().union(*before):
            return True
    return False


class Level:
    """The states that runs of some rounds come to, with what was decided and kept on the way, and
    whether the formula was true."""

    def __init__(self, algorithm, pattern, formula=None):
        self.algorithm, self.pattern, self.formula, self.number = algorithm, pattern, formula, 0
        start = [algorithm.begin(it) for it in range(algorithm.setup.nodes)]
        self.runs = {self.key(start, frozenset(), True, True): (start, frozenset(), True, True)}

    @staticmethod
    def key(states, *seen):
        return tuple(map(frozen, states)), *seen

    def is_true(self, state, number, node):
        """Returns whether the formula is true of a node's state."""
        if self.formula is None:
            return True
        names = self.algorithm.names(state, number, node)
        return language.value(self.formula, names, self.algorithm.size)

    def ends(self, states, choices, node):
        """Returns the states in which a node can end the next round."""
        number, found = self.number + 1, {}
        for missed in choices:
            inbox = {}
            for sender in set(range(len(states))) - missed:
                message = self.algorithm.send(states[sender], number, sender, node)
                if message is not None:
                    inbox[sender] = message
            state = self.algorithm.end(states[node], number, node, inbox)
            found[frozen(state)] = state
        return list(found.values())

    def follow(self, choices):
        """Goes on to the next round."""
        number, runs = self.number + 1, {}
        for states, decided, kept, true in self.runs.values():
            ends = [self.ends(states, choices, node) for node in range(len(states))]
            for after in itertools.product(*ends):
                now, still, always = set(decided), kept, true
                for node, (old, new) in enumerate(zip(states, after)):
                    if counts(self.pattern[node], number):
                        choice = self.algorithm.decision(new)
                        now |= set() if choice is None else {choice}
                        was = self.algorithm.decision(old) if number > 1 else None
                        still = still and was in (None, choice)
                        always = always and self.is_true(new, number, node)
                now = frozenset(now)
                runs[self.key(after, now, still, always)] = (after, now, still, always)
        self.number, self.runs = number, runs

    def broken(self, name):
        """Returns whether the property fails in a run of so many rounds."""
        setup = self.algorithm.setup
        tests = {
            "agreement": lambda states, decided, kept, true: len(decided) > 1,
            "validity": lambda states, decided, kept, true: not decided <= set(setup.inputs),
            "final": lambda states, decided, kept, true: not kept,
            "safety": lambda *run: any(tests[it](*run) for it in SAFETY),
            "always": lambda states, decided, kept, true: not true,
            "termination": lambda states, decided, kept, true: self.number == setup.rounds and any(
                self.pattern[node] is None and self.algorithm.decision(state) is None
                for node, state in enumerate(states)),
        }
        return any(tests[name](*it) for it in self.runs.values())


def by_levels(algorithm, question, pattern, names, formula=None):
    """Returns the first round in which each property fails, if it does, and what runs come to
    before round 1 and after each round."""
    setup, first = algorithm.setup, {}
    choices = [rows(setup, question, pattern, it + 1) for it in range(setup.rounds)]
    level = Level(algorithm, pattern, formula)
    levels = [set(level.runs)]
    if not all(choices):
        return first, levels
    for choice in choices:
        level.follow(choice)
        levels.append(set(level.runs))
        for name in names:
            if name not in first and level.broken(name):
                first[name] = level.number
    return first, levels


def by_tables(algorithm, question, pattern, names, formula=None):
    """The same through every table, each run from its beginning."""
    setup, first = algorithm.setup, {}
    choices = [rows(setup, question, pattern, it // setup.nodes + 1)
               for it in range(setup.rounds * setup.nodes)]
    levels = [set() for _ in range(setup.rounds + 1)]
    for table in itertools.product(*choices):
        level = Level(algorithm, pattern, formula)
        levels[0] |= level.runs.keys()
        for number in range(setup.rounds):
            row = table[number * setup.nodes : (number + 1) * setup.nodes]
            (states, *_seen), = level.runs.values()
            after = [level.ends(states, [missed], node)[0] for node, missed in enumerate(row)]
            level.ends = lambda states, choices, node, after=after: [after[node]]
            level.follow(None)
            del level.ends
            levels[level.number] |= level.runs.keys()
            for name in names:
                if level.broken(name):
                    first[name] = min(first.get(name, level.number), level.number)
    return first, levels


def explore(checked, setup, question, names, is_any, by=by_levels, formula=None, part=(1, 1)):
    """Returns the first round in which each property fails, and the inputs and failures of the
    first run in which it does, or ALL if it holds in any number of rounds. Of all lists of inputs
    those of one part are taken."""
    every = itertools.product(range(checked.values), repeat=setup.nodes)
    every = itertools.islice(every, part[0] - 1, None, part[1])
    first, start = {}, first_alike(question)
    lasting = can_last(question, formula) & set(names)
    read = {it: names_read(checked, it, formula) for it in lasting}
    lasting = {it for it in lasting if is_stationary(checked, read[it])}
    for inputs in every if is_any else [setup.inputs]:
        algorithm = reading.Algorithm(checked, setup._replace(inputs=list(inputs)))
        for pattern in patterns(setup, question):
            failures, levels = by(algorithm, question, pattern, names, formula)
            for name, number in failures.items():
                if name not in first or number < first[name][0]:
                    first[name] = number, inputs, pattern
            lasting = {it for it in lasting
                       if lasts(it, read[it], levels, start, checked.period)}
    return {**dict.fromkeys(lasting, ALL), **first}


def expression(text):
    """Returns the expression that a text is."""
    return language.Parser(text.encode()).expression(0)


def shown(answer):
    """Returns the words on a property, from the earliest run in which it fails, if there is one."""
    if answer is None:
        return "yes"
    if answer == ALL:
        return "yes in all rounds"
    number, inputs, pattern = answer
    failures = ["-" if it is None else str(it) for it in pattern]
    return f"no in round {number} inputs {' '.join(map(str, inputs))} failures {' '.join(failures)}"


def main():
    options = argparse.ArgumentParser(description=__doc__)
    options.add_argument("source")
    options.add_argument("numbers", type=int, nargs="+")
    options.add_argument("--faults", default="none", choices=("none", "omission", "crash"))
    options.add_argument("--clear", type=int)
    options.add_argument("--hears", type=int, default=0)
    options.add_argument("--check", default=",".join(PROPERTIES[:-1]))
    options.add_argument("--always", help="an expression that is to be true of each state")
    options.add_argument("--part", default="1/1", help="as 2/8, of all lists of inputs")
    options.add_argument("--tables", action="store_true")
    given = options.parse_args()
    nodes, faults, rounds, *inputs = given.numbers
    setup = Setup(nodes, faults, inputs, rounds)
    if given.source.startswith("@"):
        checked = reading.library_program(given.source, setup)
    else:
        with open(given.source, "rb") as file:
            checked = language.Checked(language.Parser(file.read()).program())
    question = Question(given.faults, given.clear, given.hears)
    names = given.check.split(",")
    formula = None
    if given.always is not None:
        formula, names = expression(given.always), [*names, "always"]
    by = by_tables if given.tables else by_levels
    part = tuple(map(int, given.part.split("/")))
    first = explore(checked, setup, question, names, not inputs, by, formula, part)
    for name in PROPERTIES:
        if name in names:
            print(name, shown(first.get(name)))


if __name__ == "__main__":
    main()
