"""The tests of the lab's page, in Chromium; .ci/lab runs them."""
import base64
import http.server
import json
import os
import random
import re
import signal
import subprocess
import threading
import time
import zlib

from browsing import Browser
from lab_server import PROGRAM, TOP, Failed, Lab, children_of, expect, until

SHOWN = "!busy && !again && document.querySelector('#grid td')"


def open_page(lab, **others):
    page = Browser(f"http://127.0.0.1:{lab.port}/{lab.token}/{others.pop('link', '')}", **others)
    page.until(SHOWN)
    return page


def settle(page):
    page.until("!busy && !again && !search")


def begin_with(page, title):
    """Opens an example by its title, as a user does."""
    page.press("#examples")
    number = page.run(f"DATA.examples.findIndex(one => one.title === {json.dumps(title)})")
    page.press(f"#list button:nth-child({number + 1})")
    settle(page)


def no_trouble(page):
    """Asks that the page has made no error, and that its policy had nothing to forbid."""
    expect("troubles", [], [json.dumps(it)[:300] for it in page.troubles()])


class Opened:
    """A page that is closed at the end, and has had no trouble until then."""

    def __init__(self, lab, **others):
        self.page = open_page(lab, **others)

    def __enter__(self):
        return self.page

    def __exit__(self, kind, *_):
        try:
            if kind is None:
                no_trouble(self.page)
        finally:
            self.page.close()


def on_command_line(words, files, room):
    """Returns what the program prints over some files."""
    os.makedirs(room, exist_ok=True)
    for name, text in files.items():
        with open(f"{room}/{name}", "w", encoding="utf-8") as file:
            file.write(text)
    ran = subprocess.run([PROGRAM, *words], cwd=room, capture_output=True, text=True, check=False)
    return ran.stdout


def value_text(value):
    """A value as reports have it."""
    if isinstance(value, list):
        return "{" + ",".join(map(str, value)) + "}"
    if isinstance(value, dict):
        return "[" + ",".join(f"{at}:{it}" for at, it in value.items()) + "]"
    return json.dumps(value)


FLAGGED = "[...document.querySelectorAll('.flag')].some(it => it.textContent === '✗ {}')"
RUN = ["rounds", "program.rounds", "--header", "run.header", "--omissions", "run.omissions"]
# What each cell of the grid shows: its senders with their kinds, its variables, its decision.
GRID = """(() => [...document.querySelectorAll('#grid tbody tr')].map(row =>
    [...row.cells].slice(1).map(cell => cell.classList.contains('gone') ? 'gone' : {
        kinds: [...cell.querySelectorAll('[data-omit]')].map(one =>
            one.classList[0]).join(' '),
        vars: [...cell.querySelectorAll('.vars span')].map(one => one.textContent).join(' '),
        decision: cell.querySelector('.dec')?.textContent ?? '' })))()"""


def wanted_grid(out, nodes, rounds, crash):
    """Returns what the grid has to show of a report in JSON, with all variables."""
    rows = {(it["round"], it["node"]): it for it in map(json.loads, out.splitlines())
            if "round" in it}
    grid = []
    for r in range(1, rounds + 1):
        line = []
        for i in range(nodes):
            if crash.get(i, r + 1) <= r:
                line.append("gone")
                continue
            row, before = rows[r, i], rows.get((r - 1, i))
            kinds = " ".join(
                "dead" if crash.get(j, r) < r else
                next(it for it in ("heard", "silent", "omitted") if j in row[it])
                for j in range(nodes))
            decision, last = row["decision"], before and before["decision"]
            told = ("" if last is None else "undecided again") if decision is None else (
                str(decision) if decision == last else f"decides {decision}")
            state = " ".join(f"{name} {value_text(it)}" for name, it in row["state"].items())
            line.append({"kinds": kinds, "vars": state, "decision": told})
        grid.append(line)
    return grid


def story_of_flooding(lab):
    """Short flooding: a message is clicked away, the split is seen, and the search finds it too."""
    with Opened(lab) as page:
        begin_with(page, "Flooding, a round too few")
        expect("at first", "✓ all decisions are 0", page.run("$('verdict').textContent"))
        page.press('[data-omit="1,1,0"]')
        page.until("!busy && $('verdict').className === 'split'")
        words = page.run("$('verdict').textContent")
        if "node 0 decided 0 in round 1, and node 1 decided 1 in round 1" not in words:
            raise Failed(f"the split is told as {words!r}")
        expect("what is marked", "✗ agreement", page.run(
            "[...document.querySelectorAll('#grid .flag')].map(one => one.textContent).join()"))
        page.press("#heal")
        page.until("!busy && $('verdict').className === 'agreed'")
        page.press("#explore")
        page.until("!busy && document.querySelector('.found')")
        lines = page.run("[...document.querySelectorAll('.found li')].map(it => it.textContent)")
        files = page.run("files()")
        told = on_command_line(
            ["why", "explore", "program.rounds", "--header", "@3:1:2", "--faults", "crash",
             "--clear", "1", "--check", "agreement"], files, f"{lab.room}/story")
        words = told.partition("\n    round  node  ")[0].splitlines()[1:]
        expect("the run in words", [it.strip() for it in words], lines)
        expect("the run's omissions", "crash 0 1 2\n", files["run.omissions"])
        page.run("$('whole').click()")
        out = on_command_line([*RUN, "--format", "json"], files, f"{lab.room}/story")
        expect("the grid", wanted_grid(out, 3, 2, {0: 1}), page.run(GRID))
        # what would have helped? the last message, which is let through by a click
        page.press('[data-omit="1,1,0"]')
        page.until("!busy && $('verdict').className === 'agreed'")
        page.press("#undo")
        page.until("!busy && $('verdict').className === 'split'")
        page.press("#redo")
        page.until("!busy && $('verdict').className === 'agreed'")


def by_keys_alone(lab):
    """Keys alone reach and do all that the mouse does."""
    with Opened(lab) as page:
        begin_with(page, "Flooding, a round too few")
        page.run("document.activeElement.blur()")
        for _ in range(60):
            page.key("Tab")
            if page.run("!!document.activeElement.closest('#grid td')"):
                break
        at = "document.activeElement.dataset.at"
        expect("the first place", "1,0,0", page.run(at))
        for keys, place in ((["ArrowRight"] * 4, "1,1,0"), (["ArrowDown"], "2,1,0"),
                            (["ArrowUp"], "1,1,0"), (["End"], "1,2,0"), (["Home"], "1,0,0"),
                            (["ArrowLeft"], "1,0,0"), (["ArrowRight"] * 4, "1,1,0")):
            for key in keys:
                page.key(key)
            expect(f"the place after {keys}", place, page.run(at))
        page.key(" ", "Space", text=" ")
        page.until("!busy && $('verdict').className === 'split'")
        expect("the place then", "1,1,0", page.run(at))
        page.until("!$('card').hidden")
        page.key("z", "KeyZ", control=True)
        page.until("!busy && $('verdict').className === 'agreed'")
        page.key("y", "KeyY", control=True)
        page.until("!busy && $('verdict').className === 'split'")
        page.key("x", "KeyX")
        page.until("!busy && lab.crash[1] === 1")
        page.key("Enter", control=True)
        page.until("!busy && document.querySelector('.found')")
        expect("the run", "crash 0 1 2\n", page.run("omissions()"))
        page.key("?", "Slash", text="?")
        page.until("$('helpDialog').open")
        page.key("Escape")
        page.until("!$('helpDialog').open")


def faults_as_one_types(lab):
    """A fault is marked where it is as one types, and so is one of the invariant."""
    with Opened(lab) as page:
        begin_with(page, "Flooding, a round too few")
        line = page.run("lab.text.split('\\n').indexOf('    seen := seen union s;') + 1")
        page.run(f"goTo({{line: {line}, column: 13, length: 5}})")
        page.type("sen ")
        page.until("!busy && document.querySelector('mark')")
        expect("the mark", "sen", page.run("document.querySelector('mark:not(.also)').textContent"))
        told = page.run("$('faults').textContent")
        if f'line {line}: the name "sen" isn\'t declared; is it "seen"?' not in told:
            raise Failed(f"the fault is told as {told!r}")
        expect("whether the grid is old", True, page.run("$('run').classList.contains('stale')"))
        page.run("$('text').setSelectionRange(0, 0);"
                 f"goTo({{line: {line}, column: 13, length: 4}})")
        page.type("seen ")
        page.until("!busy && !document.querySelector('mark')")
        page.until("!busy && !$('run').classList.contains('stale')")
        page.run("$('always').focus()")
        page.type("size(sen) < 2")
        page.until("!busy && $('alwaysFault').textContent.includes('\"sen\" isn')")
        page.run("$('always').select()")
        page.type("size(seen) < 2")
        page.until("!busy && !$('alwaysFault').textContent")
        page.until(FLAGGED.format("always"))


def writes_where_it_shows(lab):
    """What is typed is where the colours are, in long lines and long programs too."""
    with Opened(lab) as page:
        begin_with(page, "Flooding, a round too few")
        for place in ("lab.text.indexOf('\\n')", "lab.text.length"):
            page.run(f"(() => {{ const at = {place}; $('text').focus();"
                     " $('text').setSelectionRange(at, at); })()")
            page.type(" # " + "a long line " * 20 + "\n" * 40 + "# the end")
            settle(page)
            page.key("ArrowLeft")
            expect("how far text and colours are apart", [0, 0, 0, 0], page.run(
                "[$('text').scrollLeft, $('text').scrollTop,"
                " $('text').clientWidth - $('paint').offsetWidth,"
                " $('text').clientHeight - $('paint').offsetHeight]"))
            page.until("$('editor').scrollTop > 0")


def shows_messages(lab):
    """A cell's card has its whole state, a sender's what it says, an input's what comes first."""
    with Opened(lab) as page:
        begin_with(page, "Algorithm 1 of Dwork, Lynch and Stockmeyer")
        for target, parts in (
            ('[data-omit="0,1,2"]', ("Round 1, from node 2 to node 0: heard", "list {1}  p {1}")),
            ('[data-omit="1,1,2"]', ("Round 1, from node 2 to node 1", "It sends nothing.")),
            ("#grid tbody tr:first-child td:nth-child(2) .vars",
             ("Node 0 after round 1", "proper{0,1}", "heard 0, 1, 2. No decision.")),
            ('[data-input="2"]', ("Node 2 before round 1", "x1proper{1}locks[]"))):
            page.hover("h1")
            page.hover(target)
            page.until(f"!$('card').hidden && {json.dumps(parts)}.every(part => "
                       "$('card').textContent.includes(part))")
        page.press('[data-omit="0,1,2"]')
        page.until("!busy")
        page.hover("h1")
        page.hover('[data-omit="0,1,2"]')
        page.until("$('card').textContent.includes('omitted') && "
                   "$('card').textContent.includes('list {1}  p {1}')")


def link_of(lab, told):
    made = zlib.compressobj(9, zlib.DEFLATED, -15)
    packed = made.compress(json.dumps(told).encode()) + made.flush()
    return f"#{base64.urlsafe_b64encode(packed).decode().rstrip('=')}"


EVIL = "<img src=x onerror='window.owned=1'><script>window.owned=1</script>"


def links_are_harmless(lab):
    """A link can't put HTML or numbers of its own into the page."""
    told = {"text": f"</pre>{EVIL}", "n": 1e9, "t": -1, "r": "7", "inputs": [EVIL, 1, 99],
            "omits": [f'1,1,0"><b>{EVIL}', "0,1,1", 7, None], "crash": {"0": EVIL, "1": 2},
            "title": EVIL, "story": EVIL, "ask": {
                "faults": EVIL, "clear": EVIL, "hears": "2", "any": 1, "always": f"x = 0 {EVIL}",
                "check": ["agreement", EVIL]}}
    others = [{"text": EVIL}, {"text": f"values 2 period 1 input x\n{EVIL}", "inputs": None,
                               "omits": {}, "crash": [], "ask": {"check": {}}}]
    for each in (told, *others):
        page = Browser(f"http://127.0.0.1:{lab.port}/{lab.token}/{link_of(lab, each)}")
        try:
            page.until("checked && !busy && lab.text.includes('<img')")
            page.run("$('examples').click(); $('examplesDialog').close(); openShare(); "
                     "$('shareDialog').close()")
            expect("what it has put in", [None, 0, 1], page.run(
                "[window.owned ?? null, document.images.length, document.scripts.length]"))
            kept = json.loads(page.run("kept()"))
            expect("the numbers", (3, 1, 2), (kept["n"], kept["t"], kept["r"]))
            if each is told:
                expect("the rest", [[0, 1, 0], ["0,1,1"], {"1": 2}, "none", "", ["agreement"]],
                       [kept["inputs"], kept["omits"], kept["crash"], kept["ask"]["faults"],
                        kept["ask"]["clear"], kept["ask"]["check"]])
            no_trouble(page)
        finally:
            page.close()
    for link in ("#", "#xyz", "#!!!", link_of(lab, []), link_of(lab, None), link_of(lab, 1)):
        with Opened(lab, link=link) as page:
            expect("a link that is none", "Flooding, a round too few", page.run("lab.title"))


def links_bring_all_back(lab):
    """What is copied as a link brings the same program, run and question to another lab."""
    with Opened(lab) as page:
        begin_with(page, "FloodMin: two values may be decided")
        page.press("#explore")
        page.until("!busy && document.querySelector('.found')")
        settle(page)
        page.until("!linkTimer && location.hash.length > 100")
        before, link = page.run("kept()"), page.run("toFragment().then(shownLink)")
        if lab.token in link:
            raise Failed("the link has the token in it")
        with Lab(link) as other, Opened(other, link=f"#{other.fragment}") as again:
            expect("what came", before, again.run("kept()"))
            expect("the grid", page.run(GRID), again.run(GRID))
            begin_with(again, "OneThirdRule")
            again.press("#share")
            again.run("$('linkText').focus()")
            again.type(link)
            again.press("#openLink")
            again.until("!$('shareDialog').open")
            settle(again)
            expect("what came by hand", before, again.run("kept()"))


def files_are_the_commands(lab):
    """What is saved is what the commands print over the run that is shown."""
    with Opened(lab) as page:
        begin_with(page, "Flooding, a round too few")
        page.press('[data-crash="0,1"]')
        settle(page)
        page.press('[data-omit="1,1,0"]')
        settle(page)
        page.run("window.saved = {}; download = (name, text) => { saved[name] = text; };"
                 "openShare()")
        for kind in ("program", "header", "omissions", "schedule", "picture", "transcript"):
            page.press(f'[data-save="{kind}"]')
        page.until("saved['run.svg'] && saved['run.schedule'] && saved['program.txt']")
        saved, room = page.run("saved"), f"{lab.room}/saved"
        names = ("program.rounds", "run.header", "run.omissions")
        expect("the header", "nodes 3\nfaults 1\ninputs 0 1 1\nrounds 2\nplan known 1\n",
               saved["run.header"])
        expect("the omissions", "crash 0 1 2\n", saved["run.omissions"])
        files = {name: saved[name] for name in names}
        schedule = on_command_line(["realise", *RUN[1:]], files, room)
        expect("the schedule", schedule, saved["run.schedule"])
        words = ["draw", "program.rounds", "--schedule", "run.schedule"]
        expect("the picture", on_command_line(words, {"run.schedule": schedule}, room),
               saved["run.svg"])
        expect("the transcript", "program.txt: 1 passed\n", on_command_line(
            ["test", "program.txt"], {"program.txt": saved["program.txt"]}, room))


def keeps_a_page(lab):
    """The page to keep has the run, shows it round by round, and needs no lab."""
    with Opened(lab) as page:
        begin_with(page, "Flooding, a round too few")
        page.press('[data-omit="1,1,0"]')
        page.until("!busy && $('verdict').className === 'split'")
        page.run("lab.story = '<b>bold</b>'; window.saved = {}; "
                 "download = (name, text) => { saved[name] = text; }; openShare()")
        page.press('[data-save="page"]')
        text = page.run("saved['run.html']")
        grid = page.run("[...document.querySelectorAll('#grid td')].map(cell => "
                        "[...cell.querySelectorAll('.vars, .flags, .line > .dec')]"
                        ".map(part => part.textContent).join('|'))")
    os.makedirs(f"{lab.room}/kept", exist_ok=True)
    with open(f"{lab.room}/kept/run.html", "w", encoding="utf-8") as file:
        file.write(text)
    kept = Browser(f"file://{lab.room}/kept/run.html")
    try:
        kept.until("document.readyState === 'complete'")
        kept.until("document.getElementById('shown')?.textContent === '2 of 2 rounds'")
        expect("the grid", grid, kept.run(
            "[...document.querySelectorAll('#grid td')].map(cell => "
            "[...cell.querySelectorAll('.vars, .flags, .line > .dec')]"
            ".map(part => part.textContent).join('|'))"))
        expect("the verdict", "split", kept.run("document.getElementById('verdict').className"))
        expect("HTML of a link", 0, kept.run("document.querySelectorAll('p b').length"))
        expect("buttons", 2, kept.run("document.querySelectorAll('button').length"))
        hidden = "document.querySelectorAll('#grid tr.later').length"
        kept.press("#less")
        expect("rounds that are hidden", 1, kept.run(hidden))
        kept.key("ArrowRight")
        expect("rounds that are hidden", 0, kept.run(hidden))
        no_trouble(kept)
    finally:
        kept.close()


def tabs_and_stop(lab):
    """Several properties that fail are tabs, each with its run; a search can be stopped."""
    with Opened(lab) as page:
        begin_with(page, "A majority vote in one round")
        page.press('[data-check="termination"]')
        settle(page)
        page.press("#explore")
        page.until("!busy && document.querySelector('.found')")
        tabs = page.run("[...document.querySelectorAll('[role=tab]')].map(one => one.textContent)")
        expect("the tabs", ["✗ final, round 2", "✗ termination, round 3"], tabs)
        page.press('[data-tab="termination"]')
        settle(page)
        page.until(f"answers.open === 'termination' && {FLAGGED.format('no decision')}")
        begin_with(page, "Algorithm 1 of Dwork, Lynch and Stockmeyer")
        for step in ["n,1"] * 2 + ["r,1"] * 8:
            page.press(f'[data-step="{step}"]')
        settle(page)
        page.press("#explore")
        page.until("/round \\d+ .* states/.test($('progress').textContent)")
        page.press('[data-omit="1,1,0"]')
        page.until("!busy && lab.omits.size === 1")
        expect("whether it still searches", True, page.run("!!search"))
        page.press("#explore")
        page.until("$('answers').textContent === 'The search was stopped.'")
        until("the end of its process", lambda: not children_of(lab.ran.pid))
        page.press("#explore")
        until("another search", lambda: children_of(lab.ran.pid))
        page.go("about:blank")
        until("its end with the page", lambda: not children_of(lab.ran.pid))


def other_pages_get_nothing(lab):
    """A page of another origin that knows the address starts nothing and reads nothing."""
    address = f"http://127.0.0.1:{lab.port}/{lab.token}/"
    text = ("<!doctype html><form id=f method=post enctype=text/plain target=t></form>"
            f"<iframe name=t></iframe><iframe id=i src='{address}'></iframe>").encode()

    class Other(http.server.BaseHTTPRequestHandler):
        """Serves a page of another origin."""

        def do_GET(self):
            self.send_response(200)
            self.send_header("Content-Type", "text/html")
            self.send_header("Content-Length", str(len(text)))
            self.end_headers()
            self.wfile.write(text)

        def log_message(self, *_):
            pass

    server = http.server.ThreadingHTTPServer(("127.0.0.1", 0), Other)
    threading.Thread(target=server.serve_forever, daemon=True).start()
    page = Browser(f"http://localhost:{server.server_port}/")
    try:
        page.until("document.getElementById('f')")
        before = lab.calls()
        body = json.dumps(json.dumps({"words": ["show", "@gather:2"], "files": {}}))
        fields = "headers: {'Content-Type': 'application/json'}"
        for options in (f"{{method: 'POST', body: BODY, {fields}}}",
                        "{method: 'POST', body: BODY}", "{method: 'GET'}",
                        "{method: 'POST', body: BODY, mode: 'no-cors'}"):
            came = page.run(f"fetch('{address}run', {options.replace('BODY', body)})"
                            ".then(reply => reply.text(), () => 'refused')")
            if came not in ("refused", ""):
                raise Failed(f"a page of another origin reads {came!r}")
        name = '{"words":["show","@gather:2"],"x":'
        page.run(f"(() => {{ const f = document.getElementById('f'); f.action = '{address}run';"
                 f"const input = document.createElement('input'); input.name = '{name}';"
                 "f.append(input); f.submit(); })()")
        time.sleep(0.5)
        expect("what it could start", before, lab.calls())
        frame = page.run("(() => { try { return document.getElementById('i').contentDocument"
                         "?.body.textContent ?? 'closed'; } catch { return 'closed'; } })()")
        expect("the lab in a frame", "closed", frame)
    finally:
        page.close()
        server.shutdown()
        server.server_close()


def says_that_the_lab_has_ended(_lab):
    """When the lab is killed the page says so; its fragment brings all back to another lab."""
    with Lab() as lab:
        page = open_page(lab)
        try:
            page.press('[data-omit="1,1,0"]')
            settle(page)
            before = page.run("kept()")
            lab.stop(signal.SIGKILL)
            page.press('[data-omit="2,1,0"]')
            page.until("!busy && !$('lost').hidden")
            page.press("#undo")
            page.until("!busy")
            expect("what is kept", before, page.run("kept()"))
            fragment = page.run("toFragment()")
        finally:
            page.close()
        with Lab(port=lab.port) as other, Opened(other, link=f"#{fragment}") as again:
            expect("what came back", before, again.run("kept()"))


def write_picture(path):
    """Writes the picture of docs/LAB.md: the run that splits the wrong form of Algorithm 1."""
    with Lab(f"{TOP}/examples/wrong-algorithm-1.rounds") as lab:
        with Opened(lab, size=(1240, 640)) as page:
            page.press("#explore")
            page.until("!busy && document.querySelector('.found')")
            page.hover('[data-omit="2,4,1"]')
            page.until("!$('card').hidden && $('card').textContent.includes('l [0:1]')")
            page.picture(path)
    return 0


TESTS = (story_of_flooding, by_keys_alone, faults_as_one_types, writes_where_it_shows,
         shows_messages, links_are_harmless, links_bring_all_back, files_are_the_commands,
         keeps_a_page, tabs_and_stop, other_pages_get_nothing, says_that_the_lab_has_ended)
