"""Makes drawn cases, and holds the account against the machine at every step of them."""

import concurrent.futures
import os
import pathlib
import random
import shutil
import tempfile
from collections import Counter

from .cases import Case
from .cases_ends import ENDS
from .cases_folders import MOST_STEPS, FolderCase
from .cases_path import drawn
from .cases_reached import IMAGE_GOALS, Reached
from .check_account import differences
from .machine import Machine

MOST_SHOWN = 4
# Images of one part are drawn in the light of what those before them reach.
IN_PART = {"image": 200, "folder": 20}


class Watched(Machine):
    """A machine that notes the services and the ends of its runs."""

    def __init__(self, *words):
        self.lines = []
        super().__init__(*words)

    def ask(self, *lines):
        answers = super().ask(*lines)
        for line, answer in zip(lines, answers):
            if line == "step":
                self.lines += [text for text in answer if not text[0].isdigit()]
        return answers


def images(folder, seed, count, more=0):
    """Writes `count` images drawn from a seed, and up to `more` others until all goals are reached.
    Gives their cases."""
    counts = Counter()
    for number in range(count + more):
        if number >= count and all(counts[goal] for goal in IMAGE_GOALS):
            return
        name = f"image{number}"
        text, steps, size = drawn(random.Random(f"{seed} image {number}"), counts)
        (folder / name).write_text(text)
        yield Case(f"image {number} of seed {seed}", folder, name, steps, size)


def folders(program, folder, seed, count, first=0):
    """Writes `count` folders drawn from a seed, numbered from `first` on. Gives their cases. Their
    ends follow each other."""
    ends = list(ENDS)
    for number in range(first, first + count):
        place = folder / f"folder{number}"
        place.mkdir()
        end = ends[number % len(ends)]
        FolderCase(random.Random(f"{seed} folder {number}"), end).write(place, program)
        yield Case(f"folder {number} of seed {seed}, {end}", place, steps=MOST_STEPS)


def check(program, cases, reached, keep=None):
    """Holds the account against the machine in cases. What differs, as lines of text; the cases
    that differ are copied to the folder `keep`."""
    lines = []
    for case in cases:
        machine = Watched(program, str(case.folder), case.image)
        found = differences(program, case, reached, machine)
        reached.end_case(machine.lines, frames_of(case))
        lines += [f"{case.name}: {line}" for line in found[:MOST_SHOWN]]
        if found and keep:
            copy(case, pathlib.Path(keep))
    return lines


def check_images(program, seed, number, count, keep):
    """Makes and checks a part of the images: what they reach, and what differs."""
    reached = Reached()
    with tempfile.TemporaryDirectory() as work:
        of_part = f"{seed}.{number}" if number else seed
        made = images(pathlib.Path(work), of_part, count, more=count)
        return reached, check(program, made, reached, keep)


def check_folders(program, seed, number, count, keep):
    """The same for folders, of which a part has IN_PART."""
    reached = Reached()
    with tempfile.TemporaryDirectory() as work:
        made = folders(program, pathlib.Path(work), seed, count, number * IN_PART["folder"])
        return reached, check(program, made, reached, keep)


def parts(count, most):
    """How many cases each part has."""
    return [min(most, count - first) for first in range(0, count, most)]


def report(kind, jobs):
    """Prints what the parts of a kind reach. The number of things that are wrong or missing."""
    reached, wrong = Reached(), 0
    for job in jobs:
        found, lines = job.result()
        reached.take(found)
        wrong += len(lines)
        for line in lines:
            print(line)
    missing = reached.missing(kind)
    print(f"{reached.text(kind)}, {wrong} things wrong")
    if missing:
        print(f"{kind}s: not reached: {', '.join(missing)}")
    return wrong + len(missing)


def check_all(program, seed, images_count, folders_count, keep=None):
    """Makes and checks images and folders. The number of things that are wrong or missing."""
    kinds = (
        ("image", check_images, images_count),
        ("folder", check_folders, folders_count),
    )
    with concurrent.futures.ProcessPoolExecutor(os.cpu_count()) as pool:
        jobs = {}
        for kind, function, count in kinds:
            jobs[kind] = [
                pool.submit(function, program, seed, number, size, keep)
                for number, size in enumerate(parts(count, IN_PART[kind]))
            ]
        return sum(report(kind, found) for kind, found in jobs.items() if found)


def frames_of(case):
    """How many pages of a folder are in core at once, or None for an image."""
    if case.image:
        return None
    return int((case.folder / "boot").read_text().split(maxsplit=2)[1])


def copy(case, keep):
    """Copies what a case needs to a folder."""
    place = keep / case.name.replace(" ", "-").replace("/", "-")
    place.mkdir(parents=True, exist_ok=True)
    if case.image:
        shutil.copy(case.folder / case.image, place)
    else:
        shutil.copytree(case.folder, place, dirs_exist_ok=True)
