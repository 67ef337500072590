"""A report as data and as tables, read from its plain text a second time, in Python.

It shares nothing with the crates: docs/DATA.md says what each form is. `report_of` reads the plain
text, `json_text`, `table_text` and `summary_text` write the other forms of it, and `plain_text`
writes the plain text of JSON lines.
"""
import json
import re

ROW = re.compile(
    r"round (\d+) node (\d+) heard (\S+) silent (\S+) omitted (\S+) state((?: \w+=\S+)*)"
    r" decision (\S+)"
)
COUNT = re.compile(r"node (\d+) steps (\d+) rounds (\d+)")
GAP = "  "


class Row:
    """A closed round of a node, its cells as the plain text has them."""

    def __init__(self, found):
        self.round, self.node = int(found[1]), int(found[2])
        self.heard, self.silent, self.omitted = found[3], found[4], found[5]
        self.state = [it.split("=", 1) for it in found[6].split()]
        self.decision = found[7]


class Report:
    """The rows of a report, and its nodes' steps and closed rounds."""

    def __init__(self):
        self.rows, self.counts = [], []

    def names(self):
        return [name for name, _ in self.rows[0].state] if self.rows else []


def report_of(text):
    report = Report()
    for line in text.splitlines():
        row, count = ROW.fullmatch(line), COUNT.fullmatch(line)
        if row:
            report.rows.append(Row(row))
        elif count:
            report.counts.append([int(it) for it in count.groups()])
        else:
            raise ValueError(f"no line of a report: {line}")
    return report


# JSON


def nodes(text):
    return [] if text == "-" else [int(it) for it in text.split(",")]


def value(text):
    """Returns a variable's value."""
    if text in ("true", "false"):
        return text == "true"
    if text[0] == "{":
        return nodes(text[1:-1] or "-")
    if text[0] == "[":
        entries = [it.split(":") for it in text[1:-1].split(",") if it]
        return {key: int(number) for key, number in entries}
    return int(text)


def json_text(report):
    """Returns the report as JSON, an object a line."""
    objects = [
        {
            "round": row.round,
            "node": row.node,
            "heard": nodes(row.heard),
            "silent": nodes(row.silent),
            "omitted": nodes(row.omitted),
            "state": {name: value(text) for name, text in row.state},
            "decision": None if row.decision == "-" else int(row.decision),
        }
        for row in report.rows
    ]
    objects += [dict(zip(("node", "steps", "rounds"), it)) for it in report.counts]
    return "".join(json.dumps(it, separators=(",", ":")) + "\n" for it in objects)


# Tables


def aligned(blocks):
    """Returns blocks of rows, each a list of cells, as aligned columns."""
    widths = {}
    for row in (row for block in blocks for row in block):
        for at, cell in enumerate(row):
            widths[at] = max(widths.get(at, 0), len(cell))
    lines = [
        "".join(GAP.join(cell.ljust(widths[at]) for at, cell in enumerate(row)).rstrip() + "\n"
                for row in block)
        for block in blocks
    ]
    return "\n".join(lines)


def table_text(report, by="round", places=None, changed=False):
    """Returns a table of the rows: by rounds or by nodes, of the variables at these places."""
    names = report.names()
    places = [it for it in (range(len(names)) if places is None else places) if it < len(names)]
    last, blocks = {}, {}
    for row in report.rows:
        told = (row.state, row.decision)
        is_news, last[row.node] = last.get(row.node) != told, told
        if changed and not is_news:
            continue
        pair = [row.round, row.node] if by == "round" else [row.node, row.round]
        cells = [*map(str, pair), row.heard, row.silent, row.omitted]
        cells += [row.state[it][1] for it in places] + [row.decision]
        blocks.setdefault(pair[0], []).append(cells)
    head = ["round", "node"] if by == "round" else ["node", "round"]
    head += ["heard", "silent", "omitted", *[names[it] for it in places], "decision"]
    return aligned([[head, *blocks[it]] for it in sorted(blocks)])


def summary_text(report):
    """Returns a line for each node, and the counts of each round."""
    lines = [["node", "steps", "rounds", "decided", "decision"]]
    for node, steps, rounds in report.counts:
        decided = [it for it in report.rows if it.node == node and it.decision != "-"]
        first = [str(decided[0].round), decided[0].decision] if decided else ["-", "-"]
        lines.append([str(node), str(steps), str(rounds), *first])
    text = aligned([lines])
    if not report.rows:
        return text
    totals = [["round", "heard", "silent", "omitted"]]
    for number in sorted({it.round for it in report.rows}):
        rows = [it for it in report.rows if it.round == number]
        sets = [[it.heard for it in rows], [it.silent for it in rows], [it.omitted for it in rows]]
        totals.append([str(number), *[str(sum(len(nodes(it)) for it in one)) for one in sets]])
    return text + "\n" + aligned([totals])


def omissions_text(report):
    """Returns a line for each message that a row omits, as an omission file has it."""
    omitted = [(it, sender) for it in report.rows for sender in nodes(it.omitted)]
    return "".join(f"omit {it.node} {it.round} {sender}\n" for it, sender in omitted)


# Back from JSON


def told_nodes(members):
    return ",".join(map(str, members)) or "-"


def told(it):
    """Returns a variable's value as the plain text has it."""
    if isinstance(it, bool):
        return "true" if it else "false"
    if isinstance(it, list):
        return "{" + ",".join(map(str, it)) + "}"
    if isinstance(it, dict):
        return "[" + ",".join(f"{key}:{number}" for key, number in it.items()) + "]"
    return str(it)


def plain_text(lines):
    """Returns the plain text of a report whose JSON lines these are."""
    text = ""
    for it in map(json.loads, lines):
        if "steps" in it:
            text += f"node {it['node']} steps {it['steps']} rounds {it['rounds']}\n"
            continue
        state = "".join(f" {name}={told(one)}" for name, one in it["state"].items())
        sets = " ".join(f"{name} {told_nodes(it[name])}" for name in ("heard", "silent", "omitted"))
        decision = "-" if it["decision"] is None else it["decision"]
        text += f"round {it['round']} node {it['node']} {sets} state{state} decision {decision}\n"
    return text
