"""The page of a run: one file, with its style, its script and its data inside."""

import base64
import hashlib
import html
import pathlib
from types import SimpleNamespace

from . import rights
from .encode import as_script, encode
from .folder import source_of

FILES = pathlib.Path(__file__).resolve().parent / "page"
SCRIPTS = ("run.js", "stays.js", "elements.js", "ladder.js", "source.js", "account.js", "memory.js",
           "main.js")
SECTIONS = {
    "1": "Words and numbers",
    "2": "Registers",
    "3": "Descriptors and pairs in memory",
    "4": "Instructions",
    "5": "References: segmentation and paging",
    "6": "Access: the ring rules",
    "7": "Address formation",
    "8": "One step",
    "9": "What instructions do",
    "10": "Calls and returns between rings",
    "11": "Faults and stops",
    "12": "Runs, what is written of them, and what a ring may see",
    "13": "Several processes on one core",
    "14": "A booted core: frames, kept words, flat memory",
    "15": "The booted system",
}


def letters(segment, ring):
    """What a ring may do with a segment: r, w, e, and c where it calls into an inner ring."""
    sdw = SimpleNamespace(**segment, no_gate=not segment["gate"], limit=segment["entries"])
    if not rights.in_order(sdw):
        return ""
    found = ""
    if rights.read(sdw, ring, False)[0] is None:
        found += "r"
    if rights.write(sdw, ring)[0] is None:
        found += "w"
    if rights.execute(sdw, ring)[0] is None:
        found += "e"
    elif rights.call(sdw, ring, ring, False, 0)[0] is None:
        found += "c"
    return found


def start_of(run):
    """What is known before the first step, and what the page needs besides: rights by rings, titles
    of sections, the sources of data, and the line of each word of a source."""
    start = run.header.as_json()
    sources = dict(sources_of(run, start))
    places = {number: {"file": source.file,
                       "lines": {f"{word:06o}": line for word, line in source.places.items()}}
              for number, source in sources.items() if source.places}
    return {
        **start,
        "segments": [{**segment, "rights": [letters(segment, ring) for ring in range(8)]}
                     for segment in start["segments"]],
        "sources": {**start["sources"], **{each.file: each.lines for each in sources.values()}},
        "sections": SECTIONS,
        "places": places,
    }


def sources_of(run, start):
    """Pairs of a segment's number and its source. Data has one where it is assembled too."""
    for segment in start["segments"]:
        source = run.sources.of(int(segment["number"], 8))
        if segment["kind"] == "data" and not source:
            source = source_of(run.program, run.path, segment["file"])
            source = None if source and source.problem else source
        if source:
            yield segment["number"], source


def source_hash(text):
    digest = hashlib.sha256(text.encode("utf-8")).digest()
    return f"'sha256-{base64.b64encode(digest).decode()}'"


def page_of(run, steps, name=None, question=None):
    """The text of the page of a run. A name of its own and a question are optional."""
    start = start_of(run)
    start["name"] = name or start["name"]
    start["question"] = question
    turns = (turn.as_json() for turn in run.turns(steps))
    style = (FILES / "page.css").read_text(encoding="utf-8")
    script = "\n".join((FILES / name).read_text(encoding="utf-8") for name in SCRIPTS)
    policy = (
        f"default-src 'none'; script-src {source_hash(script)}; style-src {source_hash(style)}; "
        "img-src data:; base-uri 'none'; form-action 'none'"
    )
    filled = {
        "policy": policy,
        "title": html.escape(start["name"].encode("utf-8", "replace").decode()),
        "style": style,
        "data": as_script(encode(start, turns)),
        "script": script,
    }
    pieces = (FILES / "page.html").read_text(encoding="utf-8").split("@")
    return "".join(filled.get(piece, piece) for piece in pieces)
