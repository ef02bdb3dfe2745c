"""Who may touch what, as a table of text."""

from .who_facts import RINGS

LETTERS = "r reads, w writes, e executes it there, c calls it from there."
STACKS = (
    "Each ring has a stack and a linkage segment, stack_0 to stack_7 and linkage_0 to linkage_7: "
    "the rings from 0 to its own read and write them."
)


def aligned(rows):
    """Rows of words as lines with columns."""
    widths = [max(len(row[column]) for row in rows) for column in range(len(rows[0]))]
    padded = [[text.ljust(width) for text, width in zip(row, widths)] for row in rows]
    return ["  ".join(row).rstrip() for row in padded]


def entry_names(row):
    """The entries of a gate, as `write (0), stop (1)`; the words are octal."""
    named = [f"{name} ({place:o})" for place, name in row.entries]
    unnamed = row.limit - len({place for place, _ in row.entries})
    if unnamed:
        named.append(f"{unnamed} word{'' if unnamed == 1 else 's'} without a name")
    return ", ".join(named)


def call_sentence(row):
    """What calls from above R2 meet, or None where there are none."""
    callers = [ring for ring in RINGS if row.cells[ring].call]
    if not callers:
        return None
    rings = f"ring {callers[0]}" if len(callers) == 1 else f"rings {callers[0]} to {callers[-1]}"
    where = "each word" if row.entries is None else f"the entries {entry_names(row)}"
    if row.entries is not None and row.limit == 1:
        where = f"the entry {entry_names(row)}"
    return f"{row.name}: {rings} may call {where}, and then ring {row.brackets[1]} executes."


def heading(facts):
    who = f" for {facts.user}" if facts.user else ""
    return f"{facts.title}: who may touch what{who}"


def table(facts):
    """The lines of the table, and of what is to be said about it."""
    head = ["number", "segment", "kind", "mode", "brackets", *(f"ring {ring}" for ring in RINGS)]
    head += ["decided by"] if facts.user else []
    rows = [head]
    for row in facts.rows:
        brackets = " ".join(map(str, row.brackets))
        cells = [cell.text() for cell in row.cells]
        line = [f"{row.number:05o}", row.name, row.kind, row.mode, brackets, *cells]
        rows.append(line + ([row.decided] if facts.user else []))
    lines = [heading(facts), "", *aligned(rows), "", LETTERS]
    lines += [sentence for row in facts.rows if (sentence := call_sentence(row))]
    lines += [STACKS]
    if facts.terms:
        lines += ["", "What the access lists give to whom a term matches, with --user:", ""]
        lines += aligned(terms_table(facts))
    return [*lines, "", *facts.audit]


def terms_table(facts):
    rows = [["segment", *facts.terms]]
    for row in facts.rows:
        rows.append([row.name, *(row.by_term[term] for term in facts.terms)])
    return rows


def as_text(facts):
    return "\n".join(table(facts)) + "\n"
