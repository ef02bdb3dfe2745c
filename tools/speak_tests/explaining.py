"""Tests of tools/explain and of docs/CODES.md."""

import re

from m36lib import words
from m36lib.codes_page import page
from speak_tests.answering import ROOT, TOOLS, plain, run

# What the documents say of some words: found in the answer whatever table it comes from.
KNOWN = {
    "E2": ["does not have its form", "lda 1,", "BadFile a.alm E2 1 6", "docs/ALM.md"],
    "20.3": ["above R2", "read", "docs/MANUAL.md, section 6"],
    "MachineStop": ["a fault or a stop other than DIS", "docs/COMMANDS.md"],
    "DIS": ["DIS", "docs/MANUAL.md"],
    "6": ["MachineStop", "DRL"],
    "13": ["overflow", "out of range"],
    "lockup": ["17th indirect word"],
    "end fault 20.7 12": ["no entry of the gate"],
    "m36: BadFile e.alm E6 1 6": ["the symbol is not defined"],
    "audit no 1 A3 00000100": ["a word of a table"],
    "link 4 00024|002010 con_$write L2": ["no directory"],
    "L2": ["no directory", "end link L2 1", "docs/LINKS.md"],
    "A3": ["a word of a table", "audit no A3"],
}


def explain(*given):
    """What tools/explain answers."""
    return run([str(TOOLS / "explain"), *given], TOOLS)


def words_are_explained(_tried):
    """Known words have what the documents say of them, and a page that there is."""
    wrong = []
    for word, parts in KNOWN.items():
        done = explain(*word.split())
        said = plain(done.stdout.decode())
        lacks = [part for part in parts if plain(part) not in said]
        pages = re.findall(r"docs/(\w+\.md)", said)
        lacks += [name for name in pages if not (ROOT / "docs" / name).exists()]
        if done.returncode or lacks:
            wrong.append(f"{word}: status {done.returncode}, lacks {lacks}")
    return wrong


def sections_are_there(_tried):
    """The section that an entry names is a heading of its page."""
    wrong = []
    for group in words.GROUPS:
        text = (ROOT / "docs" / group.page).read_text()
        for title in re.findall(r'"(.*?)"', group.section):
            if not re.search(rf"^#+ {re.escape(title)}$", text, re.M):
                wrong.append(f"{group.page} has no heading {title}")
        for number in re.findall(r"\d+", group.section):
            if not re.search(rf"^#+ {number}\. ", text, re.M):
                wrong.append(f"{group.page} has no section {number}")
    return wrong


def unknown_words_are_refused(_tried):
    """An unknown word is refused without a hint, and shows nothing that a terminal obeys."""
    wrong = []
    for word, status in (("E99", 1), ("20.99", 1), ("\x1b[2Jx", 1), ("e" * 5000, 1), ("", 1)):
        done = explain(word)
        if done.returncode != status or done.stdout or not done.stderr:
            wrong.append(f"{word[:20]!r}: status {done.returncode}")
        if re.search(rb"[\x00-\x09\x0b-\x1f\x7f]", done.stderr) or len(done.stderr) > 200:
            wrong.append(f"{word[:20]!r}: {done.stderr[:300]}")
    if explain().returncode != 2:
        wrong.append("no word: not status 2")
    return wrong


def page_is_made_from_the_table(_tried):
    """docs/CODES.md is what tools/explain --page prints."""
    kept = (ROOT / "docs/CODES.md").read_text()
    printed = explain("--page").stdout.decode()
    return [] if kept == page() == printed else ["docs/CODES.md is not tools/explain --page"]


def list_has_every_word(_tried):
    """tools/explain --list has each word of the table."""
    listed = explain("--list").stdout.decode()
    entries = [entry.word for group in words.GROUPS for entry in group]
    return [f"no {w}" for w in entries if not re.search(rf"^  {re.escape(w)} ", listed, re.M)]


TESTS = (
    words_are_explained,
    sections_are_there,
    unknown_words_are_refused,
    page_is_made_from_the_table,
    list_has_every_word,
)
