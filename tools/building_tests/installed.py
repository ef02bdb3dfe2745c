"""Cases of ./install and tools/package."""

import os
import pathlib
import re
import shutil

from building import pages

from .fixture import KIT, copy_of, expect, give_kept, path_with, run

OUT = "crates/m36/out"


def proved_copy(folder, program):
    """Returns a copy in which a program counts as proved."""
    copy = copy_of(folder)
    began = pathlib.Path(folder) / "began"
    began.touch()
    shutil.copy(program, copy / OUT / "m36")
    ran = run([copy / "prove", "--mark", began], copy, PATH=path_with(folder, KIT))
    expect(ran.status == 0, f"prove --mark: {ran}")
    return copy


def installed(copy, prefix):
    ran = run([copy / "install", prefix], copy)
    expect(ran.status == 0, f"install: {ran}")
    return prefix


def case_refused(folder, program):
    """A program that is not proved, or not of these sources, is not installed."""
    copy = proved_copy(folder, program)
    give_kept(copy)
    prefix = pathlib.Path(folder) / "to"
    mark, built = (copy / OUT / "m36.built"), copy / OUT / "m36"

    def refuses(why):
        ran = run([copy / "install", prefix], copy)
        expect(ran.status == 70 and "proved" in ran.errors, f"{why}: {ran}")
        expect(not prefix.exists(), f"{why}: something was installed")

    whole = built.read_bytes()
    built.write_bytes(whole + b"\0")
    refuses("another program")
    shutil.copy(copy / OUT / "m36.unproved", built)
    with open(built, "ab") as it:
        it.write(b"\0")
    refuses("the unproved program in its place")
    built.write_bytes(whole)
    os.utime(copy / "crates/m36_word/src/half.rt")
    refuses("a newer source")
    mark.unlink()
    refuses("no stamp")
    built.unlink()
    refuses("the unproved program alone")


def broken_links(folder):
    wrong = []
    for page in sorted(folder.rglob("*.md")):
        for target in pages.links(page.read_text(encoding="utf-8")):
            if not (page.parent / target).exists():
                wrong.append(f"{page.relative_to(folder)}: {target}")
    return wrong


def case_installed(folder, program):
    """What is installed runs, its links lead somewhere, and nothing built lies in it."""
    copy = proved_copy(folder, program)
    servant = copy / "examples/servant"
    run(["sh", "commands"], servant, M36_QUIET="1")
    made = [path for path in servant.iterdir() if path.with_name(path.name + ".alm").exists()]
    expect(len(made) == 3, f"examples/servant/commands makes {made}")
    prefix = installed(copy, pathlib.Path(folder) / "to/usr")
    shutil.rmtree(copy / "crates")
    share = prefix / "share/m36"
    expect(not broken_links(share), f"links that lead nowhere: {broken_links(share)}")
    expect(not [it for it in made if (share / it.relative_to(copy)).exists()], "objects lie in it")
    expect((share / "docs/guide/README.md").is_file(), "the guide is not in it")
    work = pathlib.Path(folder) / "work"
    shutil.copytree(share / "examples/least", work)
    ran = run([prefix / "bin/m36", "bare", "least"], work)
    expect((ran.status, ran.errors) == (0, "") and ran.output.endswith("end dis 2\n"), f"{ran}")
    ran = run([prefix / "bin/m36", "bare", "absent"], work)
    found = ran.status, ran.output, ran.errors
    expect(found == (4, "", "m36: BadFile absent F1 0 0\n"), f"{ran}")
    ran = run([share / "docs/guide/check", prefix / "bin/m36"], work)
    expect(ran.status == 0, f"the examples and the guide where they are installed: {ran}")
    for command in sorted((prefix / "bin").glob("m36-*")):
        ran = run([command, "--help"], work)
        expect(ran.status == 0 and len(ran.output) > 100, f"{command.name} --help: {ran}")
        page = prefix / f"share/man/man1/{command.name}.1"
        expect(page.is_file(), f"no page of {command.name}")
    expect((prefix / "bin/m36-rings").exists(), "there is no m36-rings")


def case_manual(folder, program):
    """Each manual page is laid out with no warning, and has the command's name."""
    if not shutil.which("man") or not shutil.which("groff"):
        print("skipped: the manual pages were not laid out: there is no man or no groff here")
        return
    prefix = installed(proved_copy(folder, program), pathlib.Path(folder) / "to")
    for page in sorted((prefix / "share/man/man1").iterdir()):
        ran = run(["man", "--warnings", "-l", page], prefix, LC_ALL="C.UTF-8", MANWIDTH="100",
                  MANROFFOPT="", PAGER="cat")
        expect(ran.status == 0 and page.stem in ran.output, f"{page.name}: {ran}")
        # (lines of a listing may be longer than the page is wide)
        warned = [it for it in ran.errors.split("\n") if it and "cannot break" not in it
                  and "can't break" not in it]
        expect(not warned, f"{page.name}: {warned}")


def case_again(folder, program):
    """An older install, of this layout or of the one before it, is replaced."""
    copy = proved_copy(folder, program)
    prefix = pathlib.Path(folder) / "to"
    for name in ("bin", "share/m36/examples"):
        (prefix / name).mkdir(parents=True)
    (prefix / "bin/m36").write_text("an old program")
    (prefix / "share/m36/examples/gone").write_text("an old file")
    (prefix / "share/m36/m36").symlink_to("../../bin/m36")
    (prefix / "bin/other").write_text("not of m36")
    for _ in range(2):
        installed(copy, prefix)
        expect(not (prefix / "share/m36/examples/gone").exists(), "an old file is left")
        expect((prefix / "bin/other").exists(), "a file that is not of m36 is gone")
        ran = run([prefix / "bin/m36", "bare", "least"], prefix / "share/m36/examples/least")
        expect(ran.status == 0, f"{ran}")
    hidden = [it for it in prefix.rglob(".*") if it.name != ".gitignore"]
    expect(not hidden, f"it leaves {hidden}")


def case_package(folder, program):
    """The package has what is installed, a whole control file and no scripts, and runs."""
    if not shutil.which("dpkg-deb"):
        print("skipped: no package was made: there is no dpkg-deb here")
        return
    copy = proved_copy(folder, program)
    ran = run([copy / "tools/package", folder], copy)
    expect(ran.status == 0, f"package: {ran}")
    package = next(pathlib.Path(folder).glob("m36_*_amd64.deb"))
    first = package.read_bytes()
    run([copy / "tools/package", folder], copy)
    expect(package.read_bytes() == first, "a second package differs")
    said = run(["dpkg-deb", "-I", package], folder).output
    for field in ("Package: m36", "Version: 0", "Architecture: amd64", "Maintainer: ",
                  "Depends: libc6 (>= 2."):
        expect(re.search(rf"^ {re.escape(field)}", said, re.M), f"no {field!r} in {said}")
    listed = run(["dpkg-deb", "-c", package], folder).output
    for name in ("bin/m36", "lib/m36/m36", "share/man/man1/m36.1.gz", "share/m36/docs/MANUAL.md",
                 "share/doc/m36/copyright"):
        expect(f" ./usr/{name}" in listed, f"no {name} in the package")
    expect(not re.search(r"^\S+ (?!root/root)", listed, re.M), "a file is not of root")
    top = pathlib.Path(folder) / "root"
    run(["dpkg-deb", "-x", package, top], folder)
    control = pathlib.Path(folder) / "control"
    run(["dpkg-deb", "-e", package, control], folder)
    expect([it.name for it in control.iterdir()] == ["control"], "the package has scripts")
    ran = run([top / "usr/bin/m36", "bare", "least"], top / "usr/share/m36/examples/least")
    expect(ran.status == 0 and ran.output.endswith("end dis 2\n"), f"{ran}")
    expect(not broken_links(top / "usr/share/m36"), "links lead nowhere")


CASES = (case_refused, case_installed, case_manual, case_again, case_package)
