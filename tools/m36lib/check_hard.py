"""Checks of what is hard on a page: hostile text, many segments, refusals, stale objects and long
runs."""

import functools
import json
import re
import resource
import subprocess
import time

from .check_page import Wrong, check_quiet, check_walk, expect, opened, state
from .page_cases import PageCase, folder_of, made, run_look
from .page_html import SECTIONS
from .program import TOP

HOSTILE_NAME = "a\"<b>'&amp;"
HOSTILE = (
    "</script><script>alert(1)</script><!-- <img src=x onerror=alert(2)> \\u003c 'q' &lt; "
    "\t\x07\x1b[1m\udcff \u202e é"
)
WRITTEN = "<b>&</b>'</script>\""
MAIN = """ entry start
start: epaq 0,ic " @
 lprp4 pr7|22,*au
 epp2 msg
 lda %d,dl
 stcd pr6|20
 call6 con_$write
 call6 con_$stop
msg: aci !%s!
"""
CON = """ entry write,stop
write: tra wr
stop: dis 0
 entrybound
wr: mme 0
 rtcd pr6|20
"""
BOOT = """frames 24
work >udd>demo
library >sss
segment >udd>demo main main object re 4 4 4
segment >sss con_ con_ gate rep 0 0 5
start 4 main$start
"""
STOP = """ entry stop
stop: dis 0
 entrybound
"""
COUNTING = """ entry start
start: eax1 0
loop: eax1 1,x1
 stx1 pr7|100
 lxl2 pr7|100
 cmpx1 %d,du
 tnz loop
 epaq 0,ic
 lprp4 pr7|22,*au
 call6 stop_$stop
"""
LONG_STEPS, LONG_SECONDS, OPEN_SECONDS = 100_000, 60, 5


def check_hostile(browser, program, work):
    """Hostile names, sources and console bytes are shown as the text that they are."""
    main = MAIN.replace("@", HOSTILE) % (len(WRITTEN), WRITTEN)
    folder = folder_of(program, work, HOSTILE_NAME, {"main": main, "con_": CON}, BOOT)
    case = made(program, PageCase("hostile", folder), work)
    check_walk(browser, case)
    tab = opened(browser, case)
    expect("name", tab.evaluate("document.title"), HOSTILE_NAME)
    expect("heading", tab.evaluate("document.querySelector('h1').textContent"), HOSTILE_NAME)
    expect("elements that got in",
           tab.evaluate("[document.scripts.length, document.querySelectorAll('img, b').length]"),
           [2, 0])
    shown = tab.evaluate("document.querySelector('[data-line=\"2\"] code').textContent")
    text = main.split("\n")[1]
    expect("the line of the source", shown, text.replace("\t", "\\011").replace("\x07", "\\007")
           .replace("\x1b", "\\033").replace("\udcff", "\ufffd").replace("\u202e", "\\u202e"))
    tab.press("End")
    written = tab.evaluate("document.querySelector('.console pre').textContent")
    expect("the console", written, WRITTEN)
    check_quiet(tab, case)
    tab.close()


def check_many(browser, program, work):
    """A folder of 512 segments: those that are not touched are left out of the matrix."""
    lines = BOOT.splitlines()
    more = [f"segment >lib d{number} d data rw 4 4 4" for number in range(510)]
    boot = "\n".join([*lines[:5], *more, lines[5]]) + "\n"
    sources = {"main": MAIN.replace("@", "") % (5, "12345"), "con_": CON}
    folder = folder_of(program, work, "many", sources, boot, [("d", bytes(9))])
    case = made(program, PageCase("many", folder), work)
    check_walk(browser, case)
    tab = opened(browser, case, width=1024, height=768)
    rows = tab.evaluate("probe.texts('.matrix tbody th span')")
    expect("rows", rows, ["main", "con_", "stack_4", "linkage_4"])
    expect("too wide", tab.evaluate("probe.overflowing()"), [])
    tab.close()


def check_refused(_, program, work):
    """A folder that does not boot is refused as the program refuses it, and there is no page."""
    folder = folder_of(program, work, "refused", {"main": STOP}, BOOT)
    done = run_look(program, [folder, "-o", work / "refused.html"], work)
    own = subprocess.run([program, "trace"], cwd=folder, capture_output=True)
    expect("status and lines", (done.returncode, done.stderr), (own.returncode, own.stderr))
    expect("whether there is a page", (work / "refused.html").exists(), False)


def check_stale(browser, program, work):
    """An object that is not of its source is named, on standard error and in the page."""
    sources = {"main": MAIN.replace("@", "") % (5, "12345"), "con_": CON}
    folder = folder_of(program, work, "stale", sources, BOOT)
    (folder / "main.alm").write_text(sources["main"].replace("epp2", "epp3"))
    (folder / "con_.alm").write_text(" nothing\n")
    case = PageCase("stale", folder, page=work / "stale.html")
    done = run_look(program, [folder, "-o", case.page], work)
    tab = opened(browser, case)
    notes = tab.evaluate("[...document.querySelectorAll('#notes p')].filter(n => "
                         "n.checkVisibility()).map(n => n.textContent)")
    tab.close()
    for text in (done.stderr.decode(), "\n".join(notes)):
        for said in ("main is not what main.alm assembles to", "con_.alm does not assemble"):
            if said not in text:
                raise Wrong(f"not said: {said}: {text!r}")


def check_words(_, program, work):
    """Statuses and words of tools/look, and the lines of --json."""
    sources = {"main": COUNTING % 7, "stop_": STOP}
    boot = BOOT.replace("con_ con_ gate rep", "stop_ stop_ gate rep")
    folder = folder_of(program, work, "words", sources, boot)
    pages = [run_look(program, [folder, "-o", "-"], work).stdout for _ in range(2)]
    expect("the page is the same when it is made again", pages[0] == pages[1], True)
    for words, status in (
        ([folder, "--steps", "0"], 2),
        ([folder / "none"], 2),
        ([folder, "-x"], 2),
        ([folder, "--json", "-o", "-"], 2),
        ([folder, "-o", work / "no/page"], 3),
    ):
        expect(f"status of {words}", run_look(program, words, work).returncode, status)
    check_full(program, folder)
    expect("status without a program", run_look("/nowhere", [folder], work).returncode, 70)
    written = run_look(program, [folder, "--json"], work).stdout
    turns = [json.loads(line) for line in written.splitlines()]
    own = subprocess.run([program, "trace"], cwd=folder, capture_output=True).stdout.decode()
    lines = [turn.get("trace") or turn.get("line") for turn in turns[1:]]
    expect("lines of --json", [line for line in lines if line], own.splitlines()[1:])
    few = run_look(program, [folder, "--json", "--steps", "3"], work).stdout.splitlines()
    expect("the end of a few steps", json.loads(few[-1])["line"], None)


def check_full(program, folder):
    """A full disk is reported, by its status too."""
    for words in (["--json"], ["-o", "-"], ["-o", "/dev/full"]):
        with open("/dev/full", "w") as full:
            done = run_look(program, [folder, *words], folder, stdout=full)
        found = done.returncode, b"No space" in done.stderr
        expect(f"a full disk with {words}", found, (3, True))


def check_sections(*_):
    """The titles of MANUAL's sections are those that a page has."""
    headings = re.findall(r"^## (\d+)\. (.*)$", (TOP / "docs/MANUAL.md").read_text(), re.M)
    expect("sections", SECTIONS, {number: title for number, title in headings
                                  if number in SECTIONS})


def counting_case(program, work, name, count):
    boot = BOOT.replace("con_ con_ gate rep", "stop_ stop_ gate rep")
    folder = folder_of(program, work, name, {"main": COUNTING % count, "stop_": STOP}, boot)
    return PageCase(name, folder)


def check_size(_, program, work):
    """A page of a lesson is below 200 kB."""
    case = made(program, counting_case(program, work, "size", 40), work)
    size = case.page.stat().st_size
    if size > 200_000:
        raise Wrong(f"the page of {len(case.steps())} steps has {size} bytes")


def seconds_used():
    """The processor time of all that was started and has ended."""
    used = resource.getrusage(resource.RUSAGE_CHILDREN)
    return used.ru_utime + used.ru_stime


def check_long(browser, program, work):
    """100,000 steps: made within a minute of one processor, opened within five seconds, and right
    at the end."""
    case = counting_case(program, work, "long", LONG_STEPS // 5 + 1)
    started, used = time.monotonic(), seconds_used()
    made(program, case, work)
    seconds, used = time.monotonic() - started, seconds_used() - used
    started = time.monotonic()
    tab = opened(browser, case)
    found = state(tab)
    opening = time.monotonic() - started
    print(f"{LONG_STEPS} steps: made in {seconds:.1f} s ({used:.1f} s of the processor), opened in "
          f"{opening:.1f} s, "
          f"{case.page.stat().st_size // 1000} kB")
    expect("position", found["position"], f"Step 1 of {LONG_STEPS}")
    tab.press("End")
    tab.press("ArrowLeft")
    expect("the last trace line", state(tab)["trace"], case.steps()[-1])
    tab.close()
    if used > LONG_SECONDS or opening > OPEN_SECONDS:
        raise Wrong(f"at most {LONG_SECONDS} s and {OPEN_SECONDS} s are allowed")


def hard_checks(browser, program, work):
    checks = (check_sections, check_hostile, check_many, check_refused, check_stale, check_words,
              check_size)
    for check in checks:
        yield check.__name__, functools.partial(check, browser, program, work)


def long_checks(browser, program, work):
    yield "long", functools.partial(check_long, browser, program, work)
