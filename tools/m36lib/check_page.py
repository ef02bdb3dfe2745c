"""Checks of the page in a browser: what it shows against the program's own trace."""

import pathlib
import re
from functools import partial

from .page_cases import EXAMPLE_CASES, STEP, Examples

PROBE = (pathlib.Path(__file__).resolve().parent / "page_probe.js").read_text()
WIDTHS = ((1024, 768), (1440, 900), (1920, 1080))
NO_LINE = "no line of the trace"
UNDONE_BY = {"p": "p", "+": "-", "-": "+", "?": "?"}


class Wrong(Exception):
    """The page does not show what it should."""


def expect(what, found, expected):
    if found != expected:
        raise Wrong(f"{what}: {found!r}, expected {expected!r}")


def opened(browser, case, **how):
    tab = browser.open(case.page.as_uri(), **how)
    tab.evaluate(PROBE)
    return tab


def state(tab):
    return tab.evaluate("probe.state()")


def go_to(tab, step):
    """Goes to a step by the part of the address after `#`."""
    tab.evaluate(f"location.hash = '#{step}'")
    tab.evaluate("dispatchEvent(new HashChangeEvent('hashchange'))")


class Traced:
    """A line of a trace with its fields, those of a step without the number of the process."""

    def __init__(self, line, processes):
        self.line = line
        self.is_step = bool(STEP.match(line))
        if self.is_step:
            fields = line.split(" ", 9 if processes else 8)
            number, ring, place, _, final, *_, outcome = fields[1 if processes else 0 :]
            self.number, self.ring, self.place = int(number), int(ring), place
            self.segment = place.split("|")[0]
            self.final, self.outcome = final, outcome


def traced(case):
    return [Traced(line, case.command == "procs") for line in case.lines]


def check_step(case, expected, found):
    """What is shown at a step."""
    where = f"step {expected.number}"
    if case.places:
        expect(f"{where}, marked line", found["line"], case.places.get(expected.place))
    else:
        word = expected.place.split("|")[1]
        expect(f"{where}, marked word", found["line"].split(" ")[-1], word)
    expect(f"{where}, column of execution", found["executes"],
           [f"{expected.segment} {expected.ring}"])
    executes = f"executes in {expected.ring}"
    expect(f"{where}, ring", found["rings"][0][: len(executes)], executes)
    refused = re.fullmatch(r"fault 20\.(\d+)", expected.outcome)
    if refused:
        place = re.fullmatch(r"(\d):(\d+)\|\d+", expected.final)
        cell = f"{place[2]} {place[1]}" if place else f"{expected.segment} {expected.ring}"
        expect(f"{where}, refused cell", found["refused"], [cell])
        said = f"access violation {refused[1]}:"
        expect(f"{where}, what is said", [said in text for text in found["refusals"]], [True])
    elif not re.match("fault 1", expected.outcome):
        expect(f"{where}, what is refused", (found["refused"], found["refusals"]), ([], []))


def check_next(lines, seen, found):
    """Where the page says that the next instruction is."""
    after = next((line for line in lines[seen:] if line.is_step), None)
    if after:
        word = int(after.place.split("|")[1], 8)
        said = re.sub(r" at .*\|", " at |", found["next"])
        expect(f"before step {after.number}", said, f"Next: ring {after.ring} at |{word:o}")


def check_walk(browser, case):
    """Goes through a whole run by →."""
    tab, lines = opened(browser, case), traced(case)
    seen, found = 0, state(tab)
    while True:
        if found["trace"] != NO_LINE:
            line = lines[seen]
            expect("trace line", found["trace"], line.line)
            if line.is_step:
                expect("position", found["position"], f"Step {line.number} of {len(case.steps())}")
                check_step(case, line, found)
            seen += 1
            if line.is_step and line.outcome == "next" and case.command != "procs":
                check_next(lines, seen, found)
        before = found
        tab.press("ArrowRight")
        found = state(tab)
        if found == before:
            break
    expect("lines shown", seen, len(lines))
    check_quiet(tab, case)
    tab.close()


def check_quiet(tab, case):
    """No request but the page itself, and no error."""
    requests = [event["request"]["url"] for event in tab.reported("Network.requestWillBeSent")]
    expect("requests", requests, [case.page.as_uri()])
    errors = tab.reported("Runtime.exceptionThrown", "Runtime.consoleAPICalled", "Log.entryAdded",
                          "Page.javascriptDialogOpening")
    expect("errors", errors, [])


def positions(case, wanted):
    """The positions of the lines that are wanted, as the page has them."""
    found, number, of = [], 0, len(case.steps())
    for line in traced(case):
        number = line.number if line.is_step else number
        if wanted(line):
            found.append(f"{'Step' if line.is_step else 'After step'} {number} of {of}")
    return found


def press_through(tab, key):
    """The positions that a key reaches, until it moves no further."""
    found = [state(tab)["position"]]
    while True:
        tab.press(key)
        now = state(tab)["position"]
        if now == found[-1]:
            return found[1:]
        found.append(now)


def changes_of_ring(case):
    steps = [line for line in traced(case) if line.is_step]
    return [f"Step {now.number} of {len(steps)}" for before, now in zip(steps, steps[1:])
            if before.ring != now.ring]


def check_keys(browser, case):
    tab = opened(browser, case)
    first, of = f"Step 1 of {len(case.steps())}", len(case.steps())
    down = changes_of_ring(case)
    expect("key ↓", press_through(tab, "ArrowDown"), down)
    expect("key ↑", press_through(tab, "ArrowUp"), [*reversed(down[:-1]), first])
    marked = positions(case, lambda line: line.line.startswith("link ") or (
        line.is_step and re.match("fault|stop", line.outcome)))
    expect("key f", press_through(tab, "f"), marked)
    tab.press("End")
    expect("key End", state(tab)["position"], f"End, after step {of}")
    last = state(tab)
    tab.press("ArrowLeft")
    if state(tab) == last:
        raise Wrong("key ← does not move")
    tab.press("Home")
    expect("key Home", state(tab)["position"], first)
    tab.press("ArrowRight")
    after = state(tab)
    tab.press("ArrowRight")
    tab.press("ArrowLeft")
    expect("→, → and ←", state(tab), after)
    sizes = [float(state(tab)["size"][:-2])]
    for key in "+-":
        tab.press(key)
        sizes.append(float(state(tab)["size"][:-2]))
    if not sizes[0] == sizes[2] < sizes[1]:
        raise Wrong(f"keys + and −: sizes {sizes}")
    check_buttons(tab)
    tab.close()


def check_buttons(tab):
    """Each button does what its key does, and has a name."""
    for key in tab.evaluate("probe.keys()"):
        go_to(tab, 3)
        before = state(tab)
        tab.press(key)
        by_key = state(tab)
        if key in UNDONE_BY:
            tab.press(UNDONE_BY[key])
        go_to(tab, 3)
        expect(f"back from key {key}", state(tab), before)
        tab.evaluate(f"document.querySelector('[data-key=\"{key}\"]').click()")
        expect(f"button {key}", state(tab), by_key)
        if key in UNDONE_BY:
            tab.press(UNDONE_BY[key])
    expect("what has no name", tab.evaluate("probe.nameless()"), [])


def check_predict(browser, case):
    """What is to be predicted is in no text of the page until → is pressed."""
    tab, lines = opened(browser, case), traced(case)
    end = lines[-1].line.split(" ", 1)[1].rpartition(" ")[0]
    tab.press("p")
    for line in [line for line in lines if line.is_step]:
        go_to(tab, line.number)
        check_hidden(tab, line, end, len(case.steps()))
        for key in ("End", "f"):
            tab.press(key)
            expect(f"{key} while predicting", state(tab)["position"], f"Step {line.number}")
        tab.press("ArrowRight")
        found = state(tab)
        expect("→ shows the step", (found["position"], found["trace"]),
               (f"Step {line.number}", line.line))
        stays_after(tab, line.number)
        tab.press("ArrowRight")
        after = state(tab)["position"]
        expect("a page told before its step", after if after.startswith("Before") else "", "")
        go_to(tab, line.number)
    tab.press("p")
    count = len(case.steps())
    expect("p once more", state(tab)["position"], f"Step {count} of {count}")
    tab.close()


def check_hidden(tab, line, end, count):
    where = f"predicting step {line.number}"
    found = state(tab)
    expect(f"{where}, trace", found["trace"].split(" ")[4:], ["?"] * 5)
    expect(f"{where}, slider", found["slider"][0], found["slider"][1])
    expect(f"{where}, cells and notes", (found["refused"], found["refusals"]), ([], []))
    texts = tab.evaluate("probe.visible()")
    shown = [text for text in texts if f"end {end}" in text or f"of {count}" in text]
    if re.match("fault|stop", line.outcome):
        shown += [text for text in texts if line.outcome in text]
    if re.match(r"\d:", line.final):
        shown += [text for text in texts if line.final in text and "PR" not in text]
    expect(f"{where}, what is shown all the same", shown, [])
    check_end_hidden(tab, where)
    stays_after(tab, line.number - 1)


def stays_after(tab, number):
    """No stay that begins after a step can be seen, nor a number of a later step."""
    later = tab.evaluate(
        "[...document.querySelectorAll('.stay .steps')].filter(n => "
        "n.checkVisibility({visibilityProperty: true})).map(n => n.textContent)")
    numbers = [int(each) for text in later for each in re.findall(r"\d+", text.split("×")[0])]
    if any(each > number for each in numbers):
        raise Wrong(f"predicting step {number}, the ladder shows {later}")


def check_end_hidden(tab, where):
    ends = tab.evaluate("[...document.querySelectorAll('.ends')].filter(n => "
                        "n.checkVisibility({visibilityProperty: true})).map(n => n.textContent)")
    expect(f"{where}, the end in the ladder", ends, [])


def check_looks(browser, case, dark=False):
    """Nothing is wider than its place, and all texts can be read, at three widths."""
    for width, height in WIDTHS:
        tab = opened(browser, case, width=width, height=height, dark=dark)
        for step in (1, len(case.steps()) // 2 + 1, len(case.steps())):
            go_to(tab, step)
            where = f"{width} wide, step {step}"
            expect(f"{where}, too wide", tab.evaluate("probe.overflowing()"), [])
            expect(f"{where}, too faint", tab.evaluate("probe.faint()"), [])
        for key in ("End", "ArrowLeft", "p"):
            tab.press(key)
            expect(f"{width} wide, key {key}, too faint", tab.evaluate("probe.faint()"), [])
        tab.close()


def check_policy(browser, case):
    """The page allows nothing but itself."""
    tab = opened(browser, case)
    policy = tab.evaluate("document.querySelector('meta[http-equiv]').content")
    expect("policy begins", policy.split(";")[0], "default-src 'none'")
    expect("a script that gets in is run", tab.evaluate("probe.runs()"), False)
    tab.close()


def check_loop(browser, case):
    """`l` goes to the first step after the loop; of pages, step 3 is in the first loop."""
    tab = opened(browser, case)
    steps = [line for line in traced(case) if line.is_step]
    loop = {line.place for line in steps[1:5]}
    out = next(line.number for line in steps[5:] if line.place not in loop)
    go_to(tab, 3)
    tab.press("l")
    expect("key l", state(tab)["position"], f"Step {out} of {len(steps)}")
    repeats = sum(line.place == steps[2].place for line in steps)
    boxes = tab.evaluate("probe.texts('.stay .steps')")
    if not boxes[0].endswith(f"× {repeats}"):
        raise Wrong(f"the ladder has {boxes[0]!r}, expected × {repeats}")
    tab.close()


def example_checks(browser, program, work):
    """The checks of the examples: pairs of a name and what is to be called."""
    cases = Examples(program, work)

    def check(what, name, **how):
        return lambda: what(browser, cases[name], **how)

    for name in EXAMPLE_CASES:
        yield f"{name}: walk", check(check_walk, name)
        yield f"{name}: looks", check(check_looks, name)
    for name in ("servant", "hello", "search"):
        yield f"{name}: keys", check(check_keys, name)
        yield f"{name}: predict", check(check_predict, name)
    yield "pages: loop", check(check_loop, "pages")
    yield "servant: dark", check(check_looks, "servant", dark=True)
    yield "servant: policy", check(check_policy, "servant")


def run_checks(checks, words=("",), show=partial(print, flush=True)):
    """Makes the checks with one of these words in their names. The number of those that fail."""
    wrong = made = 0
    for name, check in checks:
        if not any(word in name for word in words):
            continue
        made += 1
        try:
            check()
        except Wrong as error:
            wrong += 1
            show(f"{name}: {error}")
    show(f"page: {made} checks, {wrong} wrong")
    return wrong
