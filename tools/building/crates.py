"""Reads crates.txt: which libraries each crate uses, and which crates a program is built from."""

import pathlib
import re


class NoCrate(Exception):
    """crates.txt cannot be read, or lacks a crate."""


def read(root):
    """Returns the libraries of each crate of the repository, by the name of the crate."""
    path = pathlib.Path(root) / "crates.txt"
    try:
        lines = path.read_text(encoding="utf-8").split("\n")
    except (OSError, UnicodeDecodeError) as why:
        raise NoCrate(f"{path}: {why}") from why
    crates = {}
    for line in lines:
        name, colon, libraries = line.split("#")[0].partition(":")
        if colon and name.strip():
            crates[name.split()[0]] = libraries.split()
    return crates


def below(crates, top):
    """Returns the crates that `top` is built from, lowest first and `top` last, and the libraries
    of the kit that they use."""
    if top not in crates:
        raise NoCrate(f"crates.txt has no crate {top}")
    own, of_kit = [], []

    def visit(name):
        for library in crates[name]:
            if library not in crates:
                of_kit.extend([library] * (library not in of_kit))
            elif library not in own:
                visit(library)
        own.append(name)

    visit(top)
    return own, of_kit


def folder(root, name):
    return pathlib.Path(root) / "crates" / name


def root_file(root, name):
    """Returns the file that the compiler is given: the program's, or the library's."""
    source = folder(root, name) / "src"
    return source / ("main.rt" if (source / "main.rt").is_file() else "lib.rt")


def files(root, name, parts):
    """Returns the files of some parts (src, specs, proofs) of a crate, in order."""
    found = []
    for part in parts:
        found += [it for it in (folder(root, name) / part).rglob("*") if it.is_file()]
    return sorted(it for it in found if re.search(r"\.(rt|antt)$", it.name))
