"""The commands of the debugger: their names, forms and help."""

from typing import NamedTuple


class Command(NamedTuple):
    """A command. `repeats` says that an empty line on a terminal gives it again."""

    name: str
    others: tuple
    form: str
    text: str
    method: str
    repeats: bool = False


class Group(NamedTuple):
    title: str
    commands: tuple


def command(names, form, text, method, repeats=False):
    name, *others = names.split()
    return Command(name, tuple(others), form, text, method, repeats)


GROUPS = (
    Group("Forward", (
        command("step s si stepi", "[N]", "Takes N steps, or one. A breakpoint or a watchpoint "
                "stops several.", "step", True),
        command("next n ni nexti over", "[N]", "Takes a step, but goes through a call "
                "(CALL6, TSPn, TSXn) up to its return.", "next", True),
        command("finish out fin", "", "Goes on until the innermost call has returned.", "finish",
                True),
        command("continue c go cont", "[N]", "Goes on to a breakpoint, a watchpoint or the end; "
                "at most N steps. (In gdb N is another thing: how many stops to pass.)", "go",
                True),
        command("ring", "", "Goes on until the ring changes.", "ring", True),
        command("until u advance", "PLACE", "Goes on until the next instruction is at a place.",
                "until"),
        command("run r", "", "Goes to the start, and on from there as `continue` does.", "run"),
        command("start", "", "Goes to the start of the run.", "start"),
        command("goto jump-to", "STEP|end", "Goes to where STEP steps have been taken, forward or "
                "back; or to the end of the run. Breakpoints do not stop it.", "goto"),
    )),
    Group("Back", (
        command("back reverse-step rs rsi reverse-stepi", "[N]", "Goes back N steps, or one.",
                "back", True),
        command("reverse-next rn rni back-over", "[N]", "Goes back a step, but back through a call "
                "to before it.", "back_over", True),
        command("reverse-finish rf back-out", "", "Goes back to before the call in which the run "
                "is.", "back_out", True),
        command("reverse-continue rc back-go", "", "Goes back to a breakpoint, to before a change "
                "of what is watched, or to the start.", "back_go", True),
        command("reverse-ring rr back-ring", "", "Goes back to before the step that changed the "
                "ring.", "back_ring", True),
        command("who", "WORD|REGISTER", "Goes back to before the last step that changed a word or "
                "a register: who changed it? `who stack_4|146`, `who pr2`.", "who"),
    )),
    Group("Where to stop", (
        command("break b br", "[PLACE] [if CONDITION]", "Sets a breakpoint: the run stops before "
                "the instruction there. Without PLACE it is here.", "add_break"),
        command("tbreak tb", "[PLACE] [if CONDITION]", "Sets a breakpoint that is deleted when it "
                "stops the run.", "add_temporary"),
        command("watch wa", "WORD|REGISTER", "Sets a watchpoint: the run stops after a step that "
                "changes a word or a register (a, q, x0 to x7, pr0 to pr7, ind).", "add_watch"),
        command("condition cond", "NUMBER [CONDITION]", "Gives a breakpoint a condition, or takes "
                "it away.", "condition"),
        command("delete d del", "[NUMBER..]", "Deletes breakpoints and watchpoints; all without a "
                "number. `delete 2-4` deletes 2, 3 and 4.", "delete"),
        command("disable dis", "[NUMBER..]", "Keeps breakpoints and watchpoints without stopping "
                "at them; all without a number.", "disable"),
        command("enable en", "[NUMBER..]", "Stops at them again.", "enable"),
    )),
    Group("Look", (
        command("here status", "", "Shows again where the run is, and what the next instruction "
                "asks.", "here"),
        command("will explain", "", "Shows the whole account of the next step, before it is taken: "
                "questions, answers, rules and effects.", "will"),
        command("why", "", "Shows why the run has stopped, and the whole account of the last step.",
                "why"),
        command("list l", "[PLACE|-|[NAME:]FIRST,LAST]", "Shows ten lines of the source around a "
                "place, or instructions where there is none. Without PLACE the lines that follow, "
                "with `-` those before. `list main:1,5` shows lines 1 to 5.", "list", True),
        command("disassemble disas", "[PLACE] [N]", "Shows N instructions from a place on.",
                "disassemble"),
        command("registers regs", "", "Shows all registers.", "registers"),
        command("print p", "EXPRESSION|PLACE", "Shows the value of an expression or of a register, "
                "or a place with its word. `p/d` shows it in one form alone: o octal, d decimal, "
                "c characters.", "print"),
        command("x", "/NF PLACE", "Shows N words from a place on, as F: o octal, d decimal, c "
                "characters, i instructions, p pairs. `x/8o secret|0`.", "examine", True),
        command("backtrace bt where", "[N]", "Shows the calls in which the run is, with their "
                "rings; N of them.", "backtrace"),
        command("frame f", "[N]", "Shows where call N of the backtrace is; `list` starts there.",
                "frame"),
        command("up", "", "Shows the next outer call.", "up"),
        command("down", "", "Shows the next inner call.", "down"),
        command("display", "[EXPRESSION|PLACE]", "Shows a value at each stop from now on; without "
                "one all that are shown. `display/d` has a form as `print`, and `display/i .` "
                "shows an instruction.", "display"),
        command("undisplay", "[NUMBER..]", "Shows these values no more; all without a number.",
                "undisplay"),
        command("rings", "", "Shows the ring that executes, and in which ring each pointer "
                "register asks.", "rings"),
        command("segments", "", "Shows the segments, and what each ring may do with them at the "
                "start of the run.", "segments"),
        command("trace t", "[N]", "Shows the trace lines of the last N steps, or of ten.", "trace"),
        command("console", "", "Shows all that the console has written so far.", "console"),
        command("info i", "breakpoints|registers|frame|rings|segments|source|line|console|display",
                "The same as `registers`, `backtrace` and so on; `info b` lists breakpoints.",
                "info"),
    )),
    Group("Other", (
        command("help h ?", "[COMMAND|places|expressions]", "Lists the commands, or describes one.",
                "help"),
        command("screen", "on|off", "On a terminal shows source, registers and rings at each stop, "
                "or a few lines alone.", "screen"),
        command("quit q exit", "", "Ends the debugger.", "quit"),
    )),
)
COMMANDS = tuple(each for group in GROUPS for each in group.commands)
REFUSED = {
    "set": "the debugger changes nothing in the machine",
    "call": "the debugger changes nothing in the machine: `step` and `finish` go through calls",
    "jump": "the debugger changes nothing in the machine: `goto STEP` goes to a step",
    "kill": "`run` begins again, and `quit` ends",
    "file": "start debug36 with the folder or the image",
}
FORM_WIDTH = 34


class Unknown(Exception):
    """There is no such command, or more than one; says so."""


def find(word):
    """The command of a name, or of the beginning of one."""
    for each in COMMANDS:
        if word == each.name or word in each.others:
            return each
    if word in REFUSED:
        raise Unknown(REFUSED[word])
    found = [each for each in COMMANDS
             if any(name.startswith(word) for name in (each.name, *each.others))]
    if not found:
        raise Unknown(f"there is no command {word}; `help` lists the commands")
    if len(found) > 1:
        names = ", ".join(each.name for each in found)
        raise Unknown(f"{word} may be {names}")
    return found[0]


def overview():
    """All commands, a line each."""
    lines = []
    for group in GROUPS:
        lines.append(f"{group.title}:")
        for each in group.commands:
            names = ", ".join((each.name, *each.others[:2]))
            form = f"{names} {each.form}".rstrip()
            if len(form) >= FORM_WIDTH:
                lines.append(f"  {form}")
                form = ""
            lines.append(f"  {form:{FORM_WIDTH}} {first_sentence(each.text)}")
    return [*lines, "", "`help COMMAND` describes one. `help places` and `help expressions` say "
            "how to write them."]


def first_sentence(text):
    return text.partition(". ")[0].removesuffix(".")


def described(each):
    """What `help COMMAND` shows."""
    form = f" {each.form}" if each.form else ""
    lines = [f"{each.name}{form}", f"  {each.text}"]
    if each.others:
        lines.append(f"  Also: {', '.join(each.others)}.")
    return lines
