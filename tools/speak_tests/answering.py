"""Runs a mistake through tools/speak and says what its answer lacks."""

import json
import pathlib
import re
import subprocess
import tempfile

from speak_tests.mistakes import Mistake

TOOLS = pathlib.Path(__file__).resolve().parents[1]
ROOT = TOOLS.parent
DRAWN = pathlib.Path(__file__).with_name("drawn.json")
# How long a call may take; one that hangs takes longer.
SECONDS = 60
HELP = "Simulate the Honeywell 6180"

# The file of each kind, and the words that read it.
FILES = {
    "source": ("e.alm", ["alm", "e"]),
    "boot": ("boot", ["audit"]),
    "bind": ("x.bind", ["bind", "x"]),
    "access": ("acl", ["access", "Smith.Demo.a"]),
    "image": ("i", ["audit", "i"]),
    "processes": ("p", ["procs", "p"]),
}
COMPONENTS = {
    "a": " entry one\n segdef both\none: nop 0\nboth: nop 0\n",
    "b": " entry two\n segdef both\ntwo: nop 0\nboth: nop 0\n",
}


class Tried:
    """The program that is tried, and tools/speak before it."""

    def __init__(self, program, tools=TOOLS):
        self.program = str(pathlib.Path(program).resolve())
        self.speak = str(tools / "speak")

    def directly(self, words, folder, **options):
        """What the program itself answers."""
        return run([self.program, *words], folder, **options)

    def spoken(self, words, folder, **options):
        """What it answers through tools/speak, as on a terminal."""
        return run([self.speak, "--always", self.program, *words], folder, **options)


def run(command, folder, **options):
    """Runs a command in a folder, with nothing to read."""
    settings = {"stdin": subprocess.DEVNULL, "timeout": SECONDS, **options}
    return subprocess.run(command, cwd=folder, capture_output=True, **settings)


def components(tried, folder):
    """Assembles the objects that the bind files name: two here, and those of the example."""
    bound = ROOT / "examples/bound"
    texts = {name: (bound / f"{name}.alm").read_text() for name in ("caller", "called")}
    for name, text in {**COMPONENTS, **texts}.items():
        pathlib.Path(folder, f"{name}.alm").write_text(text)
        tried.directly(["alm", name], folder)


def lay_out(mistake, tried, folder):
    """Writes what a mistake needs into a folder. Returns the words."""
    if mistake.kind == "words":
        return mistake.text.split("\n")
    name, words = FILES[mistake.kind]
    if mistake.kind == "bind":
        components(tried, folder)
    if mistake.kind == "boot":
        pathlib.Path(folder, "a.alm").write_text(COMPONENTS["a"])
        tried.directly(["alm", "a"], folder)
    if mistake.kind == "access":
        boot = (ROOT / "examples/lists/boot").read_text()
        pathlib.Path(folder, "boot").write_text(boot)
    pathlib.Path(folder, name).write_bytes(mistake.text.encode())
    return words


def plain(text):
    """A text with one blank where lines were broken."""
    return " ".join(text.split())


def sentences(said, code):
    """The sentences of an answer, without the lines of the file and without the help."""
    _before, marker, after = said.partition(f"\n{code}: ")
    return plain(after.split(HELP)[0]) if marker else ""


def lacking(mistake, direct, spoken):
    """What the answer to a mistake lacks."""
    said = spoken.stderr.decode("utf-8", "replace")
    first = said.split("\n")[0]
    status = rf"m36: BadFile \S+ {mistake.code} \d+ \d+"
    if mistake.code == "Usage":
        status = "m36: Usage"
    if not re.fullmatch(status, first):
        return [f"the answer is {first}"]
    lacks = []
    if (spoken.returncode, spoken.stdout) != (direct.returncode, direct.stdout):
        lacks.append("the program's own status or output")
    if not all(line in said.split("\n") for line in direct.stderr.decode().split("\n")):
        lacks.append("the program's own words")
    answer = sentences(said, mistake.code)
    wanted = [f'"{plain(mistake.wrong)}"', *mistake.expected]
    if mistake.wrong != plain(mistake.wrong):
        answer = answer.replace('" ', '"').replace(' "', '"')
        wanted = [part.replace('" ', '"') for part in wanted]
    return lacks + [part for part in wanted if part not in answer]


def judge(mistake, tried):
    """What is wrong with the answer to a mistake, as lines for a reader."""
    with tempfile.TemporaryDirectory() as folder:
        words = lay_out(mistake, tried, folder)
        direct = tried.directly(words, folder)
        try:
            spoken = tried.spoken(words, folder)
        except subprocess.TimeoutExpired as late:
            return [f"{mistake.kind} {mistake.text!r}: {late}"]
    lacks = lacking(mistake, direct, spoken)
    said = spoken.stderr.decode("utf-8", "replace").split(HELP)[0]
    text = f"{mistake.kind} ({mistake.origin}) {mistake.text!r}: lacks {lacks}\n{said}"
    return [text] if lacks else []


def drawn():
    """The mistakes of the table that was drawn, and the seed."""
    table = json.loads(DRAWN.read_text())
    mistakes = []
    for row in table["mistakes"]:
        row["text"], row["expected"] = "".join(row["text"]), tuple(row["expected"])
        mistakes.append(Mistake(**row))
    return table["seed"], mistakes


def keep_drawn(seed, mistakes):
    """Writes the table of drawn mistakes."""
    table = [{**vars(m), "text": m.text.splitlines(keepends=True)} for m in mistakes]
    text = json.dumps({"seed": seed, "mistakes": table}, indent=1)
    DRAWN.write_text(text + "\n")
