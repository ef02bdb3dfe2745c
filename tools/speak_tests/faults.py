"""Faults that are planted in a copy of the tools: tools/speak-check must notice each.

A fault is a file below tools, a text in it, and what it is replaced by.
"""

import os
import pathlib
import shutil
import subprocess
import tempfile
from concurrent.futures import ThreadPoolExecutor

from speak_tests.answering import ROOT, TOOLS

LIBRARY, TESTS = "m36lib", "speak_tests"
FAULTS = (
    # A sentence without the text at fault.
    (
        "m36lib/alm_forms.py",
        "{modifier} after the comma of {operand} is no modifier",
        "the modifier after the comma is no modifier",
    ),
    ("m36lib/alm_forms.py", '        f"{line.operation}; expected', '        f"expected'),
    ("m36lib/alm_forms.py", 'f"{piece} has a leading zero"', '"a number has a leading zero"'),
    ("m36lib/alm_forms.py", 'f"{quoted(number)} after', 'f"after'),
    ("m36lib/alm_values.py", 'f"{symbol}; expected', 'f"expected'),
    ("m36lib/alm_values.py", '", in line {first}"', '""'),
    ("m36lib/alm_values.py", "f\"{expression} is neither", "f\"it is neither"),
    ("m36lib/line_forms.py", 'f"{quoted(words[index])} does not fit', 'f"a word does not fit'),
    ("m36lib/line_forms.py", "is missing after {quoted(' '.join(words))}", "is missing"),
    ("m36lib/boot_refusals.py", ": {quoted(' '.join(words[4:9]))}; expected", "; expected"),
    ("m36lib/boot_refusals.py", 'f"{quoted(name)} is a name', 'f"it is a name'),
    ("m36lib/list_refusals.py", 'f"the term {quoted(words[1])} is', 'f"the term is'),
    ("m36lib/image_refusals.py", 'f"{quoted(words[index])} in', 'f"a number in'),
    ("m36lib/usage.py", 'f"there is no command {quoted(word)}:', 'f"there is no such command:'),
    (
        "m36lib/usage.py",
        'f"{quoted(word)} is one operand too many")\n        if not',
        'f"there is one operand too many")\n        if not',
    ),
    ("m36lib/user_rights.py", 'one in ("*", other)', 'one in (other,)'),
    ("m36lib/stale.py", "return bool(source_of", "return not bool(source_of"),
    ("m36lib/ends.py", "sentence}: {found[0]}", "sentence}"),
    ("m36lib/ends.py", '[f"{entry.word}: {entry.sentence}; {entry.advice}"]', "[]"),
    # A sentence without the form, or with another one.
    ("m36lib/alm_lines.py", "n au qu du ic al ql dl or x0 to x7", "a register"),
    ("m36lib/alm_forms.py", "from -34359738368 to 68719476735", "from -34359738368 to 34359738367"),
    ("m36lib/alm_forms.py", "has no operand; {takes(name)}", "has no operand"),
    ("m36lib/alm_values.py", "(-16384, 16383)", "(-16384, 16384)"),
    ("m36lib/line_forms.py", '"object, gate or data"', '"object or data"'),
    ("m36lib/line_forms.py", 'decimal("N", 1, 8192)', 'decimal("N", 1, 16384)'),
    ("m36lib/boot_refusals.py", '"frames": ("work",)', '"frames": ("library",)'),
    ("m36lib/refusals.py", 'if code == "D3" else None', "if not code else None"),
    ("m36lib/usage.py", "f\"{command.word} takes {", "f\"{command.word} has {"),
    ("m36lib/usage.py", "names = \", \".join(", "names = min("),
    # The tables.
    ("m36lib/commands.py", "10_000_000", "1_000_000"),
    ("m36lib/commands.py", '("bare", "run", "trace", "procs")', '("bare", "run", "trace")'),
    ("m36lib/code_words.py", '"the symbol is not defined"', '"there is no symbol"'),
    ("m36lib/run_words.py", '"20.12"', '"20.13"'),
    ("m36lib/inputs.py", '"BadFile a.alm E2 1 6"', '"BadFile a.alm E2 1 7"'),
    # What must come through, and what must not be shown.
    ("speak", "while more := os.read(handle, KEPT):", "if more := os.read(handle, 9):"),
    ("speak", "words, status))\n    return status", "words, status))\n    return 0"),
    ("speak", "return 128 + number", "return number"),
    ("speak", 'if os.environ.get("M36_PLAIN"):', "if False:"),
    ("speak", "return is_always or os.isatty(STANDARD_ERROR)", "return True"),
    ("speak", "self.child.send_signal(number)", "pass"),
    (
        "speak",
        "    except Exception:  # pylint: disable=broad-except\n        return b",
        "    except KeyError:\n        return b",
    ),
    ("speak", "bufsize=0", "stdout=subprocess.PIPE"),
    ("speak", "    write_error(line)\n    if line == b", "    if line == b"),
    ("m36lib/shown.py", 'c if c.isprintable() and c != "\\ufffd" else "?"', "c"),
    ("m36lib/shown.py", "QUOTED_LIMIT = 60", "QUOTED_LIMIT = 10_000_000"),
    ("m36lib/refusals.py", "SHOWN_LIMIT = 200", "SHOWN_LIMIT = 2_000_000"),
    ("m36lib/refusals.py", "data[: column - 1]", "data[:column]"),
    ("m36lib/texts.py", " | os.O_NONBLOCK", ""),
    ("m36lib/usage.py", "expected one of {names}\")\n\n", "did you mean bare?\")\n\n"),
    ("explain", "return 1 if unknown else 0", "return 0"),
)


def copied(folder):
    """A copy of the tools, beside what they read of the repository."""
    for name in ("crates", "docs", "examples"):
        (folder / name).symlink_to(ROOT / name)
    tools = folder / "tools"
    tools.mkdir()
    for name in ("speak", "speak-check", "explain"):
        shutil.copy(TOOLS / name, tools)
    for name in (LIBRARY, TESTS):
        shutil.copytree(TOOLS / name, tools / name, ignore=shutil.ignore_patterns("__pycache__"))
    return tools


def unnoticed(fault, program):
    """What is wrong with a fault: it can't be planted, or is not noticed."""
    name, old, new = fault
    with tempfile.TemporaryDirectory() as folder:
        tools = copied(pathlib.Path(folder))
        text = (tools / name).read_text()
        if text.count(old) != 1:
            return f"{name} has {text.count(old)} times {old!r}"
        (tools / name).write_text(text.replace(old, new))
        command = [str(tools / "speak-check"), "--first", program]
        done = subprocess.run(command, capture_output=True, check=False)
    return None if done.returncode == 1 else f"{name}: {old!r} is not noticed"


def missed(program):
    """How many faults there are, and those that are not noticed. Each is printed once it was
    tried."""
    wrong = []
    with ThreadPoolExecutor(max(1, (os.cpu_count() or 2) // 2)) as pool:
        found = pool.map(lambda fault: unnoticed(fault, program), FAULTS)
        for (name, old, _new), line in zip(FAULTS, found, strict=True):
            print(f"{'not noticed' if line else 'noticed'}: {name}: {old!r}", flush=True)
            wrong += [line] if line else []
    return len(FAULTS), wrong
