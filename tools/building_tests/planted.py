"""Faults that are planted in the scripts and tools: the case that is named must fail.

Each row has the case, the file, and a text in it with what takes its place."""

from .fixture import copy_of, expect, give_kept, run

FAULTS = (
    # (the line of the unproved build)
    ("script.line", "m36", "[ -n \"$M36_QUIET\" ] ||", "true ||"),
    ("script.line", "m36", "./prove does that\" >&2", "./prove does that\""),
    ("script.line", "m36", "[ -n \"$M36_QUIET\" ] || ", ""),
    ("script.line", "tools/run-program", "\nshift", ""),
    # (which program runs, and when it is built)
    ("script.tools", "tools/m36lib/program.py", "print(NOT_PROVED, file=sys.stderr, flush=True)",
     "pass"),
    ("script.tools", "tools/m36lib/program.py", "if not os.environ.get(\"M36_QUIET\")", "if True"),
    ("script.proved_first", "m36", "if ! \"$root/tools/is-current\"", "if true"),
    ("script.proved_first", "m36", "if ! \"$root/tools/is-current\"", "if false"),
    ("script.proved_first", "tools/is-current", "src specs proofs", "src specs"),
    ("script.old", "m36", "\"$root/tools/is-current\" --kept || build", "true"),
    ("script.old", "tools/is-current", "parts=src", "parts=specs"),
    ("script.old", "tools/building/unproved.py", "kept.get(\"sources\") == of_sources and", ""),
    ("script.old", "tools/building/kit.py",
     "if not re.fullmatch(SERIES.format(letter=\"[a-z]\"), version)",
     "if not version"),
    ("script.old", "tools/building/unproved.py", "os.utime(stamp, ns=(began, began))", "pass"),
    # (failures and interruptions)
    ("script.broken", "tools/keep-unproved", "print(why, file=sys.stderr)", "pass"),
    ("script.broken", "m36", "build || exit 70", "build || exit 1"),
    ("script.interrupted", "m36", "kill $builder 2> /dev/null; wait $builder;", ":;"),
    ("script.interrupted", "tools/building/running.py", "Ended(128 + number)", "Ended(1)"),
    ("script.one_at_a_time", "tools/building/running.py", " wait()\n", " str()\n"),
    # (the proof)
    ("proving.refused", "prove", "if run.refused:", "if False:"),
    ("proving.does_not_compile", "tools/building/proving.py", "bool(lines) and", "False and"),
    ("proving.not_built", "prove", "if not os.access(PROGRAM, os.X_OK)", "if False"),
    ("proving.changed_meanwhile", "prove", "if sum_of_sources(own, version) !=", "if [] =="),
    ("proving.progress", "prove", "EVERY = 5", "EVERY = 25"),
    ("proving.progress", "prove", "        screen.say(\"interrupted;", "        str(\"interrupted;"),
    ("proving.in_turn", "prove", "for name in own:", "for name in sorted(own):"),
    # (what is installed)
    ("installed.refused", "install", "        see_proved()\n", ""),
    ("installed.refused", "install", " or kept.get(\"program\") != stamps.checksum(PROGRAM)", ""),
    ("installed.installed", "install", "    linked(folder)\n", ""),
    ("installed.installed", "install", "path not in without and ", ""),
    ("installed.again", "install", "        replace(part, base)\n    fin", "        pass\n    fin"),
    ("installed.package", "tools/package", "Architecture: amd64", "Architecture: any"),
    ("installed.package", "tools/package", "mtime=0", "mtime=None"),
)


def is_noticed(folder, program, fault):
    """Returns whether the case of a fault fails in a copy that has it."""
    case, file, old, new = fault
    copy = copy_of(folder)
    give_kept(copy)
    text = (copy / file).read_text()
    expect(text.count(old) >= 1, f"{file} does not have {old!r}")
    (copy / file).write_text(text.replace(old, new))
    ran = run([copy / "tools/build-check", "--kept", "--only", case, program], copy)
    return ran.status == 1 and f" {case}\n" in ran.output
