"""What `roundc why` tells of a run, read from docs/SCHEDULES.md a second time, in Python.

It shares nothing with the crates. .ci/reading.py tells which messages a run omits; why, and which
events of the network did nothing, is told here by the places of events in the finished list, as
`crates/omission_reasons/specs` defines both: a copy is made, it leaves by its first release or drop
behind that, and the receiver's first receive behind its release takes it.

Of a command that is refused only the place is read here, and not the sentence: .ci/language.py,
.ci/placing.py and .ci/reading.py know the places.

`answer` is the whole of it; .ci/long compares it with the program, and .ci/why with cases/why/.
"""
import bisect
import re

import placing
import reading
from language import LARGEST, Refused

SILENT = "its sender was silent"
IDLE_LINES = 100  # so many events that did nothing are told at most


class Copies:
    """The copies of a run's messages: where each was made and left, by places of events."""

    def __init__(self, run, lines):
        self.run, self.lines = run, lines

    def at(self, place):
        return f"line {self.lines[place]}"

    def slot(self, message):
        """Returns the place at which the sender took the message's slot, or None."""
        return self.run.sent_at(*message)

    def first(self, message, copy, kinds, after):
        """Returns the first event of these kinds for a copy behind a place, or None."""
        events = self.run.network[message]
        behind = bisect.bisect(events, (after, "~"))
        found = (it for it in events[behind:] if it[1] in kinds and it[2] == copy)
        return next(found, None)

    def leaving(self, message, copy, after):
        return self.first(message, copy, ("release", "drop"), after)

    def made_at(self, message, copy):
        """Returns the place at which a copy was made, or None. Copy 0 is made by the slot, and
        another by the first event for it behind the slot, if copy 0 hadn't left by then."""
        slot = self.slot(message)
        if slot is None or copy == 0:
            return slot
        making, left = self.first(message, copy, ("copy",), slot), self.leaving(message, 0, slot)
        is_made = making and not (left and left[0] < making[0])
        return making[0] if is_made else None

    def left(self, message, copy):
        """Returns the event by which a copy left, or None."""
        made = self.made_at(message, copy)
        return None if made is None else self.leaving(message, copy, made)

    def receive_behind(self, node, place):
        """Returns the place and the round of a node's first receive behind a place, or None."""
        behind = bisect.bisect(self.run.received_at[node], place)
        if behind == len(self.run.received[node]):
            return None
        _, at, number = self.run.received[node][behind]
        return at, number

    def is_silent(self, message):
        """Whether the sender took the slot and sent nothing."""
        sender, to, number = message
        return self.slot(message) is not None and self.run.sends(sender, to, number) is None


# Why a row omits a message


def fate(copies, message, copy):
    """Tells what became of a copy of a message that was omitted."""
    _, to, number = message
    left = copies.left(message, copy)
    if left is None:
        return "never released"
    place, kind, _ = left
    if kind == "drop":
        return f"dropped at {copies.at(place)}"
    let_in = f"released at {copies.at(place)}"
    received = copies.receive_behind(to, place)
    if received is None:
        return f"{let_in}, and never received"
    at, in_round = received
    told = f"{let_in}, received at {copies.at(at)} in round {in_round}"
    if in_round > number:
        return f"{told}, which is too late"
    if in_round < max(1, number - reading.EARLY):
        return f"{told}, more than three rounds early"
    raise AssertionError(f"message {message} was carried, and isn't omitted")


def reasons(copies, message):
    """Returns why a message was omitted: a text for each of its copies, or the one that it wasn't
    sent."""
    slot = copies.slot(message)
    if slot is None:
        return [f"node {message[0]} never took the step that sends it"]
    told = [f"sent at {copies.at(slot)}, {fate(copies, message, 0)}"]
    for copy in (1, 2, 3):
        made = copies.made_at(message, copy)
        if made is not None:
            told.append(f"copy {copy}, made at {copies.at(made)}, {fate(copies, message, copy)}")
    return told


def reason_lines(copies, row):
    """Returns the lines behind a row of the report."""
    lines = []
    for sender in row.omitted:
        missed = f"    node {row.node} missed node {sender}'s message of round {row.round}: "
        lines += [missed + it for it in reasons(copies, (sender, row.node, row.round))]
    return lines


# Which events of the network did nothing


def idle_lines(copies, events):
    """Returns a line for each event of the network that did nothing, in the order of the events."""
    lines = []
    for place, (kind, *numbers) in enumerate(events):
        if kind == "step":
            continue
        *message, copy = numbers
        why = why_idle(copies, kind, tuple(message), copy, place)
        if why == SILENT:  # (it isn't listed)
            continue
        if why and len(lines) == IDLE_LINES:
            return [*lines, "    (more events did nothing)"]
        if why:
            words = event_words(kind, message, copy)
            lines.append(f"    {copies.at(place)}: {words} did nothing: {why}")
    return lines


# By which rows decisions differ or are taken back


def decision_lines(run):
    """Returns the lines behind the one that says what all decisions come to."""
    rows = [(it, run.algorithm.decision(it.state)) for it in run.rows]
    had = [(it, decision) for it, decision in rows if decision is not None]
    other = next((it for it in had if it[1] != had[0][1]), None)
    if other:
        (row, decision), (behind, its) = had[0], other
        return [
            f"    node {row.node} decided {decision} in round {row.round}, and node {behind.node} "
            f"decided {its} in round {behind.round}"
        ]
    return [it for node in run.nodes for it in taken_back_lines(node, rows)]


def taken_back_lines(node, rows):
    own = [it for it in rows if it[0].node == node]
    first = next((at for at, it in enumerate(own) if it[1] is not None), len(own))
    for row, decision in own[first + 1 :]:
        if decision != own[first][1]:
            had = own[first][0]
            yield (
                f"    node {node} decided {own[first][1]} in round {had.round}, and took that back "
                f"in round {row.round}"
            )
            return


# What breaks lockstep and the bound


def verdict_lines(run, copies, events, correct, delta, gst):
    """Returns the lines behind a verdict: one for each part of it that says no."""
    return [
        *pace_lines(copies, events, correct),
        *bound_lines(run, copies, correct, delta, gst),
        *clear_lines(run, delta, gst),
    ]


def pace_lines(copies, events, correct):
    taken = {it: 0 for it in sorted(correct)}
    for place, (kind, node, *_) in enumerate(events):
        if kind != "step" or node not in taken:
            continue
        behind = next((it for it in taken if taken[it] < taken[node]), None)
        if behind is not None:
            return [
                f"    lockstep: node {node} takes its step {taken[node]} at {copies.at(place)}, "
                f"when node {behind} has taken {taken[behind]} steps"
            ]
        taken[node] += 1
    return []


def bound_lines(run, copies, correct, delta, gst):
    found = sorted(overdue(run, correct, delta, gst))
    if not found:
        return []
    received, sent, sender, to, number, step, received_step = found[0]
    return [
        f"    bound: node {to}'s receive in its step {received_step} at {copies.at(received)} "
        f"lacks node {sender}'s message of round {number}, sent in step {step} at "
        f"{copies.at(sent)}"
    ]


def overdue(run, correct, delta, gst):
    """Yields each receive that comes before the release of a message whose bound is over, with the
    message, by the places of the receive and of the send."""
    for sender in correct:
        for to in correct:
            for number in range(1, run.setup.rounds + 1):
                step, sent = run.start(number) + to, run.sent_at(sender, to, number)
                if sent is None or step < gst or run.sends(sender, to, number) is None:
                    continue
                released = run.released(sender, to, number)
                for received_step, received, _ in run.received[to]:
                    if received_step < step + delta or received < sent:
                        continue
                    if not any(sent < it < received for it in released):
                        yield received, sent, sender, to, number, step, received_step


def clear_lines(run, delta, gst):
    if run.clear(delta, gst) != "none":
        return []
    if all(run.length(it) < delta for it in range(1, reading.ROUNDS + 1)):
        return [f"    clear: no round of the plan has {delta} receives"]
    return [f"    clear: no round of 1 to {reading.ROUNDS} starts at step {gst} or later"]


def event_words(kind, message, copy):
    numbers = [*message, copy] if copy or kind == "copy" else message
    return " ".join(map(str, [kind, *numbers]))


def why_idle(copies, kind, message, copy, place):
    """Tells why the event at a place did nothing, or nothing where it did something."""
    slot, sender = copies.slot(message), message[0]
    if slot is None or slot > place:
        if copy and kind != "copy":
            return f"copy {copy} had not been made yet"
        return f"node {sender} had not sent it yet"
    if copies.is_silent(message):
        return SILENT
    if kind == "copy":
        made = copies.made_at(message, copy)
        if made == place:
            return None
        if made is not None and made < place:
            return f"that copy was made at {copies.at(made)}"
        return f"it had left at {copies.at(copies.left(message, 0)[0])}"
    made = copies.made_at(message, copy)
    if made is None or made > place:
        return f"copy {copy} had not been made yet"
    left = copies.left(message, copy)[0]
    return None if left == place else f"it had left at {copies.at(left)}"


# Where what is refused is at fault


def place_in(name, text, at):
    """Returns how the words begin that tell of an offset in a text."""
    front = text[:at].decode().split("\n")
    return f"{name}:{len(front)}:{len(front[-1]) + 1}: "


def line_of(text, number):
    return text.replace(b"\r\n", b"\n").split(b"\n")[number - 1].decode()


def word_in(name, text, number, word):
    """Returns how the words begin that tell of a word of a line, which counts from 0."""
    before = line_of(text, number).split(" ")[:word]
    return f"{name}:{number}:{len(''.join(it + ' ' for it in before)) + 1}: "


def said_lines(text):
    """Returns the numbers of the lines that say something, from 1."""
    numbered = enumerate(reading.lines(text), 1)
    return [number for number, line in numbered if line and not line.startswith(b"#")]


def spoiled_file(source, options, files):
    """Tells of the first file that can't be read or isn't UTF-8."""
    read = [] if source.startswith("@") else [(source, reading.SOURCE_LIMIT)]
    named = [options[it] for it in (*reading.READERS, "omissions") if it in options]
    for name, limit in read + [(it, reading.SCHEDULE_LIMIT) for it in named]:
        text = files.get(name)
        if text is None:
            return f"{name}: the file can't be read: there is no such file\n"
        try:
            reading.text_of(text, limit, "")
        except Refused as why:
            if str(why) == "file":
                return place_in(name, text, fault_of_bytes(text))
    raise AssertionError("each file can be read")


def fault_of_bytes(text):
    try:
        text.decode()
    except UnicodeDecodeError as fault:
        return fault.start
    raise AssertionError("the text is UTF-8")


def end_before(text, at):
    """Returns where the word before a place ends, without comments and white space."""
    front = text[:at]
    while True:
        front = front.rstrip()
        line = front[front.rfind(b"\n") + 1 :]
        if b"#" not in line:
            return len(front)
        front = front[: len(front) - len(line) + line.index(b"#")]


def in_source(name, text, cause):
    """Tells of a source that is refused."""
    placed = re.fullmatch(r"source [125] at (\d+) \d+", cause)
    if placed:  # (what is missing is shown behind the word before)
        at = int(placed[1])
        return place_in(name, text, at), place_in(name, text, end_before(text, at))
    if cause == "source 3":  # (where it nests too deep isn't read here)
        return f"{name}:"
    if cause == "source 4":
        return f"{name}: the text has more than {reading.SOURCE_LIMIT} bytes\n"
    return place_in(name, text, placing.Faults(text).first()[0])


def in_lines(options, files, cause):
    """Tells of the first text of lines that is too long, or has a line at fault."""
    name, is_list = next(options[it] for it in reading.READERS if it in options), False
    try:
        reading.opened({it: options[it] for it in options if it != "omissions"}, files)
        name, is_list = options["omissions"], True
    except Refused:
        pass
    if cause == "schedule 3":
        return f"{name}: the text has more than {reading.SCHEDULE_LIMIT} bytes\n"
    number, text = int(cause.split()[-1]), files.get(name, b"")
    if number > len(reading.lines(text)):
        return place_in(name, text, len(text))
    if cause.startswith("schedule 2"):
        words = line_of(text, number).split(" ")
        large = (at for at, it in enumerate(words) if it.isdigit() and int(it) > LARGEST)
        return word_in(name, text, number, next(large, 0))
    return f"{name}:{number}:{bad_column(line_of(text, number), is_list)}: "


def bad_column(line, is_list):
    """Returns the column of what is wrong with a line that has no form: a comment behind other
    words, a blank or a tab too many, a sign, or a comma between numbers; else the first."""
    if not line.startswith("\ufeff"):
        hidden = re.search(r"#|\t|^ |(?<= ) | $", line)
        if hidden:
            return hidden.start() + 1
        number = re.search(r"(?:^|(?<= ))[-+][0-9]", line)
        comma = None if is_list else re.search(r"(?:^|(?<= ))[0-9][^ ]*,", line)
        found = [it.start() + 1 for it in (number, comma) if it]
        if found:
            return min(found)
    return 1


def in_header(checked, setup):
    """Returns the number of a header's first line with a number that is outside its limits, from 0,
    and the number's word; or None."""
    inputs = [at for at, it in enumerate(setup.inputs, 1) if it >= checked.values]
    counted = len(setup.inputs) == setup.nodes
    fits = (
        (1 <= setup.nodes <= reading.NODES, 1),
        (setup.faults <= reading.FAULTS, 1),
        (counted and not inputs, inputs[0] if counted and inputs else 0),
        (1 <= setup.rounds <= reading.ROUNDS, 1),
        (setup.delta is None or 1 <= setup.delta <= reading.DELTA, 2),
    )
    return next(((at, word) for at, (it, word) in enumerate(fits) if not it), None)


def stranger(setup, line):
    """Returns the first word of an event, or of an omission line, that names what the run doesn't
    have."""
    kind, *words = line.split(" ")
    forms = {
        "step": "n",
        "release": "nnrc",
        "drop": "nnrc",
        "copy": "nnrk",
        "omit": "nRn",
        "cut": "NR",
        "crash": "nrN",
    }
    if kind == "copy" and int(words[3]) == 0:  # (told before the others)
        return 4
    return next(at for at, it in enumerate(zip(forms[kind], words), 1) if not names(setup, *it))


def names(setup, kind, word):
    """Whether the run has what a word names."""
    if kind in "nN":
        return all(int(it) < setup.nodes for it in word.split(",") if it != "-")
    if kind in "rR":
        first, _, last = word.partition("-")
        return 1 <= int(first) <= int(last or first) <= setup.rounds
    return int(word) <= 3


def in_run(command, source, options, files, cause):
    """Tells of a line, or of an option, that names what the run doesn't have or can't do. Of
    several options any may be told, so these are all that are at fault."""
    checked, setup, behind = reading.program_and_run(command, source, options, files)
    name = next(options[it] for it in reading.READERS if it in options)
    lines = said_lines(files[name])
    header = in_header(checked, setup)
    if header:
        line, word = header
        return word_in(name, files[name], lines[line], word)
    if cause != "run 1":
        name, first = (options["omissions"], 0) if "omissions" in options else (name, 5)
        line = said_lines(files[name])[first + int(cause.split()[-1])]
        return word_in(name, files[name], line, stranger(setup, line_of(files[name], line)))
    correct = {int(it) for it in options.get("correct", "").split(",") if it}
    if any(it >= setup.nodes for it in correct):
        return "--correct: "
    if command == "threads":
        place = next(at for at, it in enumerate(behind.stops) if it[0] >= setup.nodes)
        return word_in(name, files[name], lines[len(reading.HEADER) + 1 + place], 1)
    return in_options(setup, behind, options, files, correct)


def in_options(setup, omissions, options, files, correct):
    """Tells of what changes a run in lockstep, and can't."""
    found = [f"--{it}: " for it in ("delays", "orders") if options.get(it, "").count(",") >= 65536]
    if any(int(it[0]) >= setup.nodes or int(it[0]) in correct for it in options.get("stop", [])):
        found.append("--stop: ")
    for it in options.get("delay", []):
        *ends, number, _ = map(int, it)
        if max(ends) >= setup.nodes or not 1 <= number <= setup.rounds:
            found.append("--delay: ")
    lines = said_lines(files[options["omissions"]]) if "omissions" in options else []
    for line, it in zip(lines, omissions):
        if it.kind == "crash" and it.sender in correct:
            name = options["omissions"]
            found.append(word_in(name, files[name], line, 1))
    return tuple(found)


def in_columns(source, options, files):
    """Tells of the first name in a list of variables that is that of none."""
    checked = reading.program_and_run("check", source, {}, files)[0]
    variables, first = [it.name for it in checked.variables], 0
    for name in options["vars"].split(","):
        if name not in variables:
            return f"--vars:1:{first + 1}: this name isn't a variable of the program\n"
        first += len(name) + 1
    raise AssertionError(f"all are variables: {options['vars']}")


def refusal(words, files, cause):
    """Returns how the words begin that tell why a command is refused; of several beginnings any may
    be."""
    command, source, options = reading.read_words(words)
    kind = cause.split()[0]
    if kind == "file":
        return spoiled_file(source, options, files)
    if kind in ("source", "check"):
        return in_source(source, files[source], cause)
    if kind == "library":  # (the source, or the line of the header that doesn't fit)
        named = [options[it] for it in ("schedule", "setup", "header") if it in options]
        return (f"{source}: ", *(f"{it}:" for it in named))
    if kind == "schedule":
        return in_lines(options, files, cause)
    if kind == "run":
        return in_run(command, source, options, files, cause)
    if kind == "table:":
        return in_columns(source, options, files)
    return ""  # (whether a trace can be written isn't told)


def complaint_of_lines(out, files):
    """Says what is wrong with the lines that are shown below a place, or nothing."""
    told = out.decode().split("\n")
    for at, line in enumerate(told):
        placed = re.match(r"([^ :]+):([0-9]+):([0-9]+): .", line)
        if not placed or placed[1] not in files:
            continue
        number, column = int(placed[2]), int(placed[3])
        text = files[placed[1]].decode("utf-8", "replace").replace("\r\n", "\n").split("\n")
        shown = "".join(text[number - 1 : number])
        if not shown.isprintable() or len(shown) > 100:
            continue
        if "\ufffd" in shown:
            shown = shown[: column - 1]
        if told[at + 1] != f"    {shown}" or not told[at + 2].startswith(" " * (column + 3) + "^"):
            return f"the line {number} of {placed[1]} isn't shown right"
    return ""


# The whole answer


def told_of_served(source, options, files):
    """Returns what is told of a run that is served: the report and, behind each row that omits
    messages, why. Then comes what `--decided` adds, and the events that did nothing."""
    checked, setup, events = reading.program_and_run("run", source, options, files)
    run = reading.Run(reading.Algorithm(checked, setup), events)
    copies = Copies(run, said_lines(files[options["schedule"]])[len(reading.HEADER) :])
    report, out = run.report().splitlines(), []
    for row, line in zip(run.rows, report):
        out += [line, *reason_lines(copies, row)]
    out += report[len(run.rows) :] + run.told(options).splitlines()
    if "decided" in options:
        out += decision_lines(run)
    out += idle_lines(copies, events)
    return "".join(f"{it}\n" for it in out)


def told_of_rounds(source, options, files):
    """Returns what is told of a run in rounds: the report, and which rows show its decisions."""
    checked, setup, omissions = reading.program_and_run("rounds", source, options, files)
    run = reading.Rounds(reading.Algorithm(checked, setup), omissions)
    report, told = run.report().splitlines(), run.told(options).splitlines()
    return "".join(f"{it}\n" for it in [*report, *told, *decision_lines(run)])


def told_of_judged(source, options, files):
    """Returns what is told of a run that is judged: the verdict, and what breaks it."""
    checked, setup, events = reading.program_and_run("judge", source, options, files)
    run = reading.Run(reading.Algorithm(checked, setup), events)
    copies = Copies(run, said_lines(files[options["schedule"]])[len(reading.HEADER) :])
    terms = reading.numbers_of(options["correct"]), int(options["delta"]), int(options["gst"])
    out = [run.verdict(events, *terms).rstrip("\n"), *verdict_lines(run, copies, events, *terms)]
    return "".join(f"{it}\n" for it in out)


def answer(words, files):
    """Returns what `roundc why` answers to a command's words. Where the command is refused, `out`
    is how its words begin, as a text or a tuple of texts, and not the whole of it."""
    plain = reading.answer(words, files)
    if plain.status == 2:
        return plain
    if plain.status != 0:
        cause = plain.err.decode().removeprefix("refused ").rstrip("\n")
        return reading.Answer(0, refusal(words, files, cause), b"")
    command, source, options = reading.read_words(words)
    if command == "threads":
        return reading.Answer(0, b"nothing hinders these threads from starting\n", b"")
    if command == "judge":
        return reading.Answer(0, told_of_judged(source, options, files).encode(), b"")
    if command == "rounds" and "decided" in options:
        return reading.Answer(0, told_of_rounds(source, options, files).encode(), b"")
    if command != "run":
        return plain
    return reading.Answer(0, told_of_served(source, options, files).encode(), b"")
