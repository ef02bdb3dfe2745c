"""The help of the program, put together from the table of `m36lib.commands`."""

from m36lib.commands import COMMANDS, OPTIONS, STATUSES

ABOUT = "Simulate the Honeywell 6180 of Multics, in the current folder"
USAGE = "m36 COMMAND [FILE | NAME | USER | SEED] [OPTIONS]"
EXAMPLES = ("m36 bare least", "m36 trace --steps 50 --user=Smith.Demo.a")


def option_words(option):
    """An option as the help shows it: `--steps <N>`."""
    return f"{option.word} <{option.value.name}>" if option.value else option.word


def columns(rows):
    """Lines of two columns: the first is as wide as its longest text, and two blanks follow."""
    width = max(len(left) for left, _ in rows)
    return [f"{left:<{width}}  {right}" for left, right in rows]


def section(title, lines):
    """A heading, its lines, and an empty line after them."""
    return [f"{title}:", *(f"  {line}" for line in lines), ""]


def help_text():
    """The whole help, with a line feed at its end."""
    commands = columns([(command.word, command.summary) for command in COMMANDS])
    options = columns([(f"    {option_words(option)}", option.summary) for option in OPTIONS])
    statuses = columns([(f"{status.number}  {status.name}", status.summary) for status in STATUSES])
    lines = [ABOUT, "", f"Usage: {USAGE}", ""]
    lines += section("Commands", commands) + section("Options", options)
    lines += section("Statuses", statuses) + section("Examples", EXAMPLES)
    return "\n".join(lines[:-1]) + "\n"
