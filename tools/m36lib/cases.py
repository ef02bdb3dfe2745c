"""Runs that the account is held against: the examples, the sessions, the vectors, and folders that
`make` makes."""

import importlib.machinery
import importlib.util
import pathlib
import re
import shutil
import subprocess
from dataclasses import dataclass

from .made_folders import FOLDERS, WORDS_OF_DATA
from .made_images import all_images

ROOT = pathlib.Path(__file__).resolve().parents[2]
PROGRAM_WORD = re.compile(r"(\.\./)*m36")
MOST_STEPS = 200_000
VIEW = 7
MOST_FRAMES_VIEWED = 8


@dataclass
class Case:
    """A run: its folder, its image or None, at most how many steps, and the size of core where
    segment 7 of the image lies over all of it, so that all words can be looked at after the run."""

    name: str
    folder: pathlib.Path
    image: str = None
    steps: int = MOST_STEPS
    core: int = None


def set_root(root):
    """Takes the examples and the vectors of another checkout."""
    global ROOT
    ROOT = root


def run(program, folder, words):
    """Runs the program with these words, which must end well."""
    done = subprocess.run([program, *words], cwd=folder, capture_output=True)
    if done.returncode:
        raise RuntimeError(f"{folder}: {' '.join(words)}: {done.stderr.decode()}")


def prepare(program, folder):
    """Runs those lines of a folder's `commands` that make files."""
    for line in (folder / "commands").read_text().splitlines():
        words = line.split()
        if words[0] == "cp":
            for name in words[1:-1]:
                shutil.copy(folder / name, folder / words[-1])
        elif PROGRAM_WORD.fullmatch(words[0]) and words[1] in ("alm", "bind"):
            run(program, folder, words[1:])


def is_image(path):
    lines = path.read_bytes().split(b"\n", 2)
    return lines[0].startswith(b"core ") and len(lines) > 1 and lines[1].startswith(b"dbr ")


def images_in(folder):
    return [path.name for path in sorted(folder.iterdir()) if path.is_file() and is_image(path)]


def is_refused(folder):
    """The example shows a boot that the program refuses."""
    return "m36: BadFile boot " in (folder / "expected").read_text()


def examples(program, work):
    """Each example: its folder booted, and its images."""
    top = work / "examples"
    shutil.copytree(ROOT / "examples", top)
    for commands in sorted(top.rglob("commands")):
        folder = commands.parent
        name = str(folder.relative_to(top))
        prepare(program, folder)
        if (folder / "boot").exists() and not is_refused(folder):
            yield Case(name, folder)
        for image in images_in(folder):
            yield Case(f"{name}/{image}", folder, image)


def sessions(program, work):
    """The images of docs/sessions. One of them never ends."""
    for image in images_in(ROOT / "docs/sessions"):
        yield Case(f"docs/sessions/{image}", ROOT / "docs/sessions", image, steps=1000)


def vectors_check():
    """The module of vectors/check, which knows how steps and cases are run."""
    path = str(ROOT / "vectors/check")
    loader = importlib.machinery.SourceFileLoader("vectors_check", path)
    spec = importlib.util.spec_from_loader("vectors_check", loader)
    module = importlib.util.module_from_spec(spec)
    loader.exec_module(module)
    return module


def vector_steps(program, work):
    """The single steps of the vectors, with the instructions that load registers before them."""
    check = vectors_check()
    folder = work / "steps"
    folder.mkdir()
    lines = (ROOT / "vectors/steps").read_text().splitlines()
    for number, line in enumerate(line for line in lines if not line.startswith("#")):
        word, before, after = check.read_line(line)
        image, loads = check.step_image(word, before.v, [], after.v)
        image, size = viewed(check, image)
        (folder / f"step{number}").write_text(image)
        yield Case(f"vectors/steps: {line}", folder, f"step{number}", loads + 1, size)


def vector_references(program, work):
    """The cases of the vectors, with a segment over all of core."""
    check = vectors_check()
    folder = work / "references"
    folder.mkdir()
    cases = check.read_cases((ROOT / "vectors/references").read_text())
    for number, (name, lines) in enumerate(cases):
        image, size = viewed(check, "\n".join(check.image_lines(lines)) + "\n")
        (folder / f"case{number}").write_text(image)
        steps = len(check.of_kind(lines, "step"))
        yield Case(f"vectors/references: {name}", folder, f"case{number}", steps, size)


def image_cases(program, work):
    """Images for rules that the others don't reach."""
    check = vectors_check()
    folder = work / "images"
    folder.mkdir()
    for number, (name, image, steps) in enumerate(all_images()):
        image, size = viewed(check, image)
        (folder / f"image{number}").write_text(image)
        yield Case(f"images: {name}", folder, f"image{number}", steps, size)


def make_folder(program, folder, made):
    """Writes one of the made folders."""
    folder.mkdir()
    (folder / "boot").write_text(made.boot)
    (folder / "main.alm").write_text(made.source)
    (folder / "data").write_bytes(bytes(WORDS_OF_DATA // 2 * 9))
    run(program, folder, ["alm", "main"])


def folder_cases(program, work):
    """Folders for rules that the examples don't reach."""
    for number, made in enumerate(FOLDERS):
        folder = work / f"folder{number}"
        make_folder(program, folder, made)
        yield Case(f"folders: {made.name}", folder)


def viewed(check, image):
    """The image with a segment over all of core, and the size of core; the image as it is, and
    None, where there is no room for the segment's descriptor."""
    lines = image.splitlines()
    frames = int(lines[0].split()[1])
    if frames <= MOST_FRAMES_VIEWED:
        found, words, size = check.with_view(lines)
        if max(words) < size:
            return found, size
    return image, None


def made(program, work, seeds):
    """The folders that `make` makes of seeds."""
    for seed in seeds:
        folder = work / f"made{seed}"
        folder.mkdir()
        run(program, folder, ["make", str(seed)])
        yield Case(f"make {seed}", folder)


def first_made(program, work):
    return made(program, work, [1])


def twenty_made(program, work):
    return made(program, work, range(1, 21))


SMALL = (vector_references, image_cases, folder_cases, vector_steps, examples, sessions)
GATE = (*SMALL, first_made)
LONG = (twenty_made,)
