"""The rows of `bench/slow-corners`: what each is, its files, and what is to be reached."""

import pathlib
import subprocess
from typing import Callable, NamedTuple

from corners import colliding, folders, images
from corners.measuring import Failed

BENCH = pathlib.Path(__file__).resolve().parents[1]
LIMIT = 1 << 24
SOURCE = b" entry go\ngo: nop 0\n"


TIME, MEETING, MEMORY = "time", "names that meet", "memory"


class Row(NamedTuple):
    """`words` are run over `files`, with the file `given` as the input, after the words `first`.
    `reach` is a ratio of times, or MiB where memory is measured. Short runs take more turns."""

    name: str
    what: str
    words: str
    files: Callable
    reach: float
    measure: str = TIME
    ordinary: Callable = dict
    given: str = ""
    first: str = ""
    turns: int = 1


def large_input(name):
    """The source that bench/large-inputs writes by this name."""
    made = subprocess.run([BENCH / "large-inputs", name], stdout=subprocess.PIPE, check=True)
    return {"source.alm": made.stdout}


def repeated(name, piece, head=b"", **others):
    """A file of 16 MiB at most that is one piece again and again, beside others."""
    return {name: head + piece * ((LIMIT - len(head)) // len(piece)), **others}


def image_and_lines(image, lines):
    return {"image": image.encode(), "lines": lines}


def full_core():
    return image_and_lines(images.full_core(), b"go\nback 99999\n")


def chains_row(count):
    return Row(
        f"chains-{count}",
        f"chains of pairs over {count} segments, 50,000 steps",
        "bare image --steps 50000",
        lambda: image_and_lines(images.chains(count), b""),
        1.8,
    )


def links_row(count):
    return Row(
        f"links-{count}",
        f"one link snapped again and again, {count} sections laid",
        "run --steps 200000",
        lambda: folders.snapped_links(count),
        1.1,
    )


RUNS = [
    *map(chains_row, (40, 90, 140)),
    Row("page-services", "18 page services a step, 24 frames, 10,000 steps",
        "run --steps 10000", folders.page_services, 1.4),
    Row("page-walk", "a page at each third step, 24 frames, 200,000 steps",
        "run --steps 200000", folders.page_walk, 1.1),
    *map(links_row, (10, 500)),
    Row("alm-lines", "`alm` of 129,000 plain lines",
        "alm source", lambda: large_input("plain-lines"), 1.2),
    Row("alm-links", "`alm` of 250,000 uses of 8,188 links",
        "alm source", lambda: large_input("repeated-links"), 1.4),
    Row("made-run", "`run` of the folder of `make 1`",
        "run", dict, 0.65, first="make 1", turns=10),
    Row("make", "`make 1`", "make 1", dict, 0.85, turns=10),
]
LARGE = [
    Row("one-file-audit", "511 segments of one file of 2^18 words: `audit`",
        "audit", folders.segments_of_one_file, 2100, MEMORY),
    Row("one-file-run", "the same: `run`",
        "run --steps 9", folders.segments_of_one_file, 2100, MEMORY),
    Row("bind-repeated", "`bind` of one object named 1.9 million times",
        "bind all", lambda: repeated("all.bind", b"object e\n", **{"e.alm": SOURCE}), 600, MEMORY),
    Row("debug-core", "`debug` of 16,384 frames, none of them zero, with `back`",
        "debug image", full_core, 900, MEMORY, given="lines"),
    Row("alm-instructions", "`alm` of 2.4 million `nop 0`, refused",
        "alm source", lambda: repeated("source.alm", b" nop 0\n"), 800, MEMORY),
    Row("alm-empty", "`alm` of 16 million empty lines",
        "alm source", lambda: repeated("source.alm", b"\n"), 1000, MEMORY),
]


def meeting_rows(kind):
    """A row with names that met under a fixed start, and one with the best that was found since."""
    for name, what, files in (
        ("met", "whose names met under a fixed start", kind.meeting),
        ("drawn", "of which the most names meet", kind.drawn),
    ):
        yield Row(f"{name}-{kind.name}", f"{kind.what}, {what}", kind.words, files, 2.0, MEETING,
                  kind.ordinary)


def all_rows():
    meeting = [row for kind in colliding.KINDS for row in meeting_rows(kind)]
    return [*meeting, *RUNS, *LARGE]


def prepare(row, make, folder, program):
    """Writes the files, assembles the sources but that of the row itself, and runs `first`."""
    files = make()
    for name, content in files.items():
        (folder / name).write_bytes(content)
    assembled = [name[:-4] for name in files if name.endswith(".alm")]
    before = [["alm", name] for name in assembled if row.words != f"alm {name}"]
    for words in before + ([row.first.split()] if row.first else []):
        done = subprocess.run(
            [program, *words], cwd=folder, stdout=subprocess.DEVNULL, stderr=subprocess.PIPE
        )
        if done.returncode not in (0, 6, 7):
            line = done.stderr.decode(errors="replace").strip()
            raise Failed(f"row {row.name}: {' '.join(words)}: {line}")
