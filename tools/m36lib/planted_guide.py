"""Faults for `docs/guide/check --planted`, each of which docs/guide/check must report.

Each row is a file, a text that is in it, and what to put in its place, once."""

PLANTED = (
    # What the commands of a folder write, and which files they make
    ("examples/hello/expected", "end dis 13\n", "end dis 14\n"),
    ("examples/wild/expected", "status 6\n", "status 0\n"),
    ("examples/servant/commands", "../../m36 alm secret\n", ""),
    ("examples/factorial/fact_.alm", " mpy pr6|24 ", " mpy pr6|25 "),
    ("examples/.gitignore", "/say/say_\n", ""),
    ("examples/.gitignore", "/say/say_\n", "/say/say_\n/say/other\n"),
    # What pages show
    ("README.md", "...... fault 20.3\n", "...... fault 20.4\n"),
    ("docs/guide/gate.md", '" its two entries', "its two entries"),
    ("docs/guide/gate.md", "gate rep 0 0 5\n", "gate rep 0 0 5   a gate\n"),
    ("docs/guide/lock.md", "step\nback\nstep\n", "step\nstep\nback\n"),
    ("docs/guide/write.md", "source template 73", "source template 74"),
    ("docs/guide/write.md", " ada 1,dl ", " ada 1;dl "),
    ("docs/guide/servant.svg", "fault 20.3", "fault 20.4"),
    ("docs/guide/direct-who.svg", "brackets 1 1 1", "brackets 1 4 4"),
    ("examples/least/README.md", "    core 1\n", "    core 2\n"),
    ("examples/least/README.md", "    end dis 2\n", "    end dis 3\n"),
)
