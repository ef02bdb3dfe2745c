"""What a user names when a session begins, and what to do where it can't begin."""

from ..language.documents import BOOT, SOURCE_SUFFIX
from ..refusals import REFUSAL
from ..shown import plain
from ..words import code_entry, with_explain

ABSENT = "F1"


def folder_and_image(path):
    """The folder and the image that a path names; the image is None where the folder boots. A
    source or a boot text means its folder."""
    if path.is_dir():
        return path, None
    if path.suffix == SOURCE_SUFFIX or path.name == BOOT:
        return path.parent, None
    return path.parent, path.name


def advice(text, folder):
    """Sentences about a refusal of the program: what its code means, and what to do."""
    match = next(filter(None, map(REFUSAL.fullmatch, text.splitlines())), None)
    entry = code_entry(match[2]) if match else None
    if entry is None:
        return []
    file, code = plain(match[1]), match[2]
    if code == ABSENT and (folder / f"{match[1]}{SOURCE_SUFFIX}").is_file():
        return [f"{file} is not there; `m36 alm {file}` makes it from {file}{SOURCE_SUFFIX}"]
    if code == ABSENT and match[1] == BOOT:
        return [f"{plain(str(folder))} has no boot text, a file named {BOOT}"]
    said = with_explain(f"`m36-explain {code}` says more")
    return [f"{code} of {file}: {entry.sentence}; {said}"]
