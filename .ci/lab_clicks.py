"""The tests of the lab's page that click much or measure; .ci/lab runs them."""
import json
import os
import random
import time

from lab_page import GRID, RUN, Opened, begin_with, on_command_line, settle, wanted_grid
from lab_server import Failed, expect

# How long the random clicks may take, and how many there are at most.
CLICK_SECONDS = 30
MAX_CLICKS = 1000
# Clicks on a button, and resolves with the time until the grid is there.
CLICK = """window.clicked = selector => new Promise(done => {
    const from = performance.now();
    const look = () => busy || again ? setTimeout(look, 1) : done(performance.now() - from);
    document.querySelector(selector).click();
    look(); })"""
# The same until the new grid is drawn.
DRAWN = """window.clicked = selector => new Promise(done => {
    const from = performance.now(), end = () => done(performance.now() - from);
    const watch = new MutationObserver(() => {
        watch.disconnect();
        requestAnimationFrame(() => setTimeout(end)); });
    watch.observe($('run'), {childList: true, subtree: true});
    document.querySelector(selector).click(); })"""


def random_clicks(lab):
    """After each of many random clicks the grid is what `roundc rounds` prints."""
    seed = int(os.environ.get("LAB_SEED") or time.time())
    chance, clicks, times = random.Random(seed), 0, []
    ends = time.monotonic() + CLICK_SECONDS
    titles = ["Flooding for t + 1 rounds", "Algorithm 1 with an acknowledgement too few",
              "UniformVoting", "LastVoting: Paxos in rounds", "A majority vote in one round"]
    with Opened(lab) as page:
        page.run("$('whole').click()")
        page.run(CLICK)
        while clicks < MAX_CLICKS and time.monotonic() < ends:
            title = chance.choice(titles)
            begin_with(page, title)
            n, rounds, inputs, values = page.run("[lab.n, lab.r, lab.inputs, program.values]")
            lost, crash = set(), {}
            for _ in range(min(50, MAX_CLICKS - clicks)):
                r, i, j = chance.randint(1, rounds), chance.randrange(n), chance.randrange(n)
                what = chance.random()
                if what < 0.06:
                    selector = f'[data-input="{i}"]'
                    inputs[i] = (inputs[i] + 1) % values
                elif crash.get(i, r + 1) < r or what >= 0.14 and (
                        crash.get(i, r + 1) <= r or crash.get(j, r) < r):
                    continue           # there's no such button in the grid
                elif what < 0.14:
                    selector = f'[data-crash="{i},{r}"]'
                    if crash.get(i) == r:
                        del crash[i]
                    else:
                        crash[i] = r
                else:
                    selector = f'[data-omit="{i},{r},{j}"]'
                    lost ^= {(i, r, j)}
                times.append(page.run(f"clicked({json.dumps(selector)})"))
                clicks += 1
                check_grid(lab, page, (n, rounds, inputs, lost, crash), f"seed {seed}, {title}")
                if time.monotonic() > ends:
                    break
    times.sort()
    print(f"lab: {clicks} random clicks of seed {seed}, median {times[len(times) // 2]:.0f} ms")
    if clicks < 10:
        raise Failed(f"only {clicks} clicks in {CLICK_SECONDS} s")


def check_grid(lab, page, told, where):
    """Compares the grid with a run of the command line, whose files are written here."""
    n, rounds, inputs, lost, crash = told
    omissions = [f"omit {i} {r} {j}\n" for i, r, j in lost if not crash.get(j, r + 1) <= r]
    for j, r in crash.items():
        reached = [str(i) for i in range(n) if i != j and (i, r, j) not in lost]
        omissions.append(f"crash {j} {r} {','.join(reached) or '-'}\n")
    files = {"program.rounds": page.run("$('text').value"), "run.omissions": "".join(omissions),
             "run.header": f"nodes {n}\nfaults {page.run('lab.t')}\n"
                           f"inputs {' '.join(map(str, inputs))}\nrounds {rounds}\nplan known 1\n"}
    out = on_command_line([*RUN, "--format", "json", "--decided"], files, f"{lab.room}/clicks")
    wanted, came = wanted_grid(out, n, rounds, crash), page.run(GRID)
    for each, other in zip(wanted, came):
        expect(f"{where}: {omissions} {inputs}", each, other)
    decided = json.loads(out.splitlines()[-1])["decided"]
    words = "✗ decisions differ" if decided == "split" else (
        "no node decides" if decided is None else f"✓ all decisions are {decided}")
    verdict = page.run("$('verdict').textContent")
    expect(f"{where}: the verdict", words, verdict[:len(words)])


def what_no_report_has(lab):
    """What messages say, whether an invariant is true, and the states before round 1 are right."""
    chance = random.Random(7)
    with Opened(lab) as page:
        begin_with(page, "Flooding for t + 1 rounds")
        page.run("$('whole').click(); change(() => { lab.ask.always = 'size(seen) < 2'; })")
        lost = {(i, r, j) for i in range(4) for r in (1, 2, 3) for j in range(4)
                if chance.random() < 0.5}
        omits = json.dumps([f"{i},{r},{j}" for i, r, j in lost])
        page.run(f"change(() => {{ lab.omits = new Set({omits}); lab.crash = {{2: 2, 3: 2}}; }})")
        settle(page)
        files = page.run("files()")
        out = on_command_line([*RUN, "--format", "json"], files, f"{lab.room}/watched")
        rows = {(it["round"], it["node"]): it for it in map(json.loads, out.splitlines())
                if "round" in it}
        started = page.run("startStates()")
        for i, value in enumerate([0, 1, 1, 1]):
            expect(f"node {i} before round 1", {"x": value, "seen": [value], "chosen": []},
                   started[str(i)])
        # (a node sends what it had seen before the round)
        seen = {(r, i): it["state"]["seen"] for (r, i), it in rows.items()}
        seen.update({(0, i): it["seen"] for i, it in enumerate(started.values())})
        for r, i in rows:
            for j in range(4):
                if (r - 1, j) in seen:
                    says = "{" + ",".join(map(str, seen[r - 1, j])) + "}"
                    expect(f"what {j} says to {i} in round {r}", f"s {says}",
                           page.run(f"said({i}, {r}, {j})"))
        says = "{" + ",".join(map(str, seen[1, 3])) + "}"
        expect("what a node says to one that crashes too", f"s {says}", page.run("said(2, 2, 3)"))
        marked = page.run("[...document.querySelectorAll('#grid td')].filter(cell =>"
                          " cell.textContent.includes('✗ always')).map(cell =>"
                          " [cell.parentElement.rowIndex, cell.cellIndex - 1])")
        expect("where the invariant is marked",
               [[r, i] for (r, i), it in sorted(rows.items()) if len(it["state"]["seen"]) > 1],
               sorted(marked))


def is_quick(lab):
    """The first grid comes at once, and so does the grid after a click."""
    grids, medians = [], []
    for _ in range(3):
        with Opened(lab) as page:
            page.run("toFragment()")
            grids.append(page.run("firstGrid"))
            begin_with(page, "LastVoting: Paxos in rounds")
            page.run("change(() => { lab.n = 5; lab.r = 12; lab.inputs = [0, 1, 0, 1, 0]; })")
            settle(page)
            page.run(DRAWN)
            times = []
            for k in range(21):
                times.append(page.run(f"clicked('[data-omit=\"{1 + k % 4},{1 + k % 12},0\"]')"))
                settle(page)
            medians.append(sorted(times)[10])
        if min(grids) <= 300 and min(medians) <= 100:
            break
    print(f"lab: first grid {min(grids):.0f} ms after the page, a click {min(medians):.0f} ms"
          " (median, 5 nodes and 12 rounds)")
    if min(grids) > 3000 or min(medians) > 1000:
        raise Failed("that's ten times as long as on a machine with nothing else to do")


def fits_its_window(lab):
    """3 nodes and 8 rounds need no scrolling on a laptop; 16 and 60 scroll in the grid alone."""
    for dark in (False, True):
        with Opened(lab, dark=dark, size=(1366, 650)) as page:
            begin_with(page, "Algorithm 1 with an acknowledgement too few")
            page.press("#explore")
            page.until("!busy && document.querySelector('.found')")
            sizes = ("[document.documentElement.scrollHeight - innerHeight, "
                     "document.documentElement.scrollWidth - innerWidth]")
            inner = "[$('pane').scrollHeight - $('pane').clientHeight, "\
                    "$('pane').scrollWidth - $('pane').clientWidth]"
            expect("what doesn't fit", [0, 0, 0, 0], page.run(f"[...{sizes}, ...{inner}]"))
            page.run("change(() => { lab.n = 16; lab.r = 60;"
                     " lab.inputs = range(16).map(i => i % 2); })")
            settle(page)
            expect("what doesn't fit in the page", [0, 0], page.run(sizes))
            expect("whether the grid scrolls", True, page.run(f"{inner}.every(it => it > 0)"))
            page.press('[data-omit="15,60,3"]')
            settle(page)
            omitted = page.run("omissions()").splitlines()
            expect("whether a click in the last cell omits", True, "omit 15 60 3" in omitted)


TESTS = (random_clicks, what_no_report_has, is_quick, fits_its_window)
