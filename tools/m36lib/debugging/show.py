"""What a debugger shows of a session, as lines of plain text."""

from ..disassemble import disassemble
from ..fields import ITP_TAG, ITS_TAG, pointer_of, signed, tag_of
from ..recorder import console_written, end_text
from ..shown import plain
from ..who_facts import RINGS, cell
from ..who_text import aligned
from .lines import numbers_of

HERE, ELSEWHERE = "=>", "  "
WORDS_IN_LINE = 4
ABSENT = "none"
BYTE = 0o777


def place_line(session):
    """Where the session is: `step 39  ring 4  main$start+11`."""
    ended = f"  ({session.ended})" if session.ended else ""
    ring = session.registers.ring
    return f"step {session.step}  ring {ring}  {session.place_name()}{ended}"


def stop_lines(session):
    """Why a session is where it is, where that is, and what the next instruction asks."""
    said = [session.stop.text] if session.stop.text else []
    if session.ended:
        said = [end_text(session.ended)] if session.stop.reason == "end" else said
        watched = session.stop.text if session.stop.what else None
        said = [watched] if watched else said
    lines = [*said, place_line(session), *instruction_lines(session)]
    return lines + (why_lines(session) if session.ended else will_lines(session))


def instruction_lines(session):
    """The next instruction: its line of the source, or else its word."""
    registers = session.registers
    return [instruction_line(session, registers.segment, registers.word)]


def instruction_line(session, segment, word):
    file, line = session.source_line(segment, word)
    if line is not None:
        source = session.world.sources.of(segment)
        return f"{file}:{line}  {plain_line(source.lines[line - 1])}"
    (found,) = session.words(segment, word)
    text = "there is no word" if found is None else f"{found:012o}  {disassemble(found)}"
    return f"{session.world.names.word(segment, word)}  {text}"


def source_facts(session):
    """The file of the source that is executed, and how many lines it has."""
    segment = session.registers.segment
    name = session.world.names.segment(segment)
    source = session.world.sources.of(segment)
    if source is None:
        return [f"there is no source of {name}"]
    if source.problem:
        return [f"{source.file} is not the source of {name}: {source.problem}"]
    return [f"{source.file} is the source of {name}, with {last_line(source)} lines"]


def steps_text(count):
    if count == 1:
        return "One step has been taken."
    return f"{count} steps have been taken." if count else "No step has been taken."


def plain_line(text):
    """A line of a source, fit to be shown."""
    return plain(text.expandtabs(8)).rstrip()


def will_lines(session):
    """What the next instruction asks of memory, and what the answers are."""
    lines = asked_lines(session.account())
    if not session.world.is_worked_out(session):
        lines.append("  (by the tables as they were at an earlier step)")
    return lines


def asked_lines(account):
    """The questions of a step with their answers, but not that it may be fetched; and how it ends
    if it does not go on."""
    lines = [f"  {asked.question} {asked.answer}" for asked in account.references
             if asked.kind != "fetch" or not asked.allowed]
    if account.outcome.kind != "next":
        lines += [f"  {said.text}" for said in account.sentences
                  if said.part == "end" and not said.text.startswith("Registers and words")]
    return lines


def why_lines(session):
    """The account of the last step, and whether the machine did what it says."""
    account, trace = session.last_account()
    if account is None:
        return ["  No step has been taken."]
    lines = asked_lines(account)
    outcome = trace.split(" ", 8)[8]
    if account.outcome.trace_text() not in (outcome, "unknown"):
        lines.append(f"  The machine did otherwise; the trace line is right: {trace}")
    return lines


def account_lines(account):
    """All sentences of an account, with the sections of the manual that have their rules."""
    return [f"  {said.text} (section {said.rule})" for said in account.sentences]


def register_lines(session):
    """All registers; the instruction counter and pointers also by the names of their words."""
    registers = session.registers
    lines = [
        f"ic {session.place}  ring {registers.ring}  {session.place_name()}",
        f"a {registers.a:012o}  q {registers.q:012o}  ind {registers.indicators.text()}",
        "x " + " ".join(f"{value:06o}" for value in registers.x),
    ]
    names = session.world.names
    for number, pointer in enumerate(registers.pr):
        name = names.word(pointer.segment, pointer.word)
        lines.append(f"pr{number} {pointer.text()}  {name}")
    return lines


def frame_lines(session):
    """The calls in which the run is, with their rings."""
    rows = []
    for number, frame in enumerate(session.frames()):
        line = f"{frame.file}:{frame.line}" if frame.line else ""
        called = f"in {frame.began}"
        called += f", called in step {frame.call_step}" if frame.call_step else ", the start"
        rows.append([f"#{number}", f"ring {frame.ring}", frame.name, line, called])
    return aligned(rows)


def segment_lines(session):
    """The segments at the start of the run, and what the ring that executes may do with each."""
    ring = session.registers.ring
    here = session.registers.segment
    rows = [["", "segment", "name", "brackets", "flags", f"ring {ring}", "other rings"]]
    for number, sdw in session.world.descriptors():
        flags = "".join(letter if on else "-" for letter, on in (
            ("r", sdw.read), ("e", sdw.execute), ("w", sdw.write), ("p", sdw.privileged),
            ("g", not sdw.no_gate)))
        others = [f"{other}:{cell(sdw, other).text()}" for other in RINGS
                  if other != ring and not cell(sdw, other).is_empty()]
        rows.append([HERE if number == here else ELSEWHERE, f"{number:05o}",
                     session.world.names.segment(number), f"{sdw.r1} {sdw.r2} {sdw.r3}", flags,
                     cell(sdw, ring).text(), " ".join(others)])
    return aligned(rows)


def ring_lines(session):
    """The ring that executes, those of the pointer registers, and those of the calls."""
    registers = session.registers
    lines = [f"ring {registers.ring} executes, since step {session.ring_since()}"]
    names = session.world.names
    for number, pointer in enumerate(registers.pr):
        ring = max(pointer.ring, registers.ring)
        lines.append(f"pr{number} asks in ring {ring}: {names.word(pointer.segment, pointer.word)}")
    return lines


def source_lines(session, segment, word, count, marks=frozenset()):
    """Lines of a source around a word; None where there is none. `marks` are places of breaks."""
    source = session.world.sources.of(segment)
    line = source.places.get(word) if source else None
    if line is None:
        return None
    return numbered_lines(session, segment, first_line(source, line, count), count, marks)


def first_line(source, line, count):
    """The first of this number of lines around a line."""
    return max(1, min(line - count // 2, last_line(source) - count + 1))


def last_line(source):
    """The number of the last line of a source."""
    return len(source.lines) - (not source.lines[-1])


def numbered_lines(session, segment, first, count, marks=frozenset()):
    """Lines of a segment's source from one on, with their numbers."""
    source = session.world.sources.of(segment)
    marked = {source.places.get(at) for number, at in map(numbers_of, marks) if number == segment}
    here = session.source_line()
    lines = []
    for number in range(first, min(first + count - 1, last_line(source)) + 1):
        arrow = HERE if here == (source.file, number) else ELSEWHERE
        stop = "b" if number in marked else " "
        text = plain_line(source.lines[number - 1])
        lines.append(f"{arrow}{stop}{number:4}  {text}".rstrip())
    return lines


def code_lines(session, segment, word, count, marks=frozenset()):
    """Instructions from a word on."""
    registers = session.registers
    here = (registers.segment, registers.word)
    stops = set(map(numbers_of, marks))
    lines = []
    for at, found in enumerate(session.words(segment, word, count), word):
        arrow = HERE if here == (segment, at) else ELSEWHERE
        stop = "b" if (segment, at) in stops else " "
        text = "no word" if found is None else f"{found:012o}  {disassemble(found)}"
        lines.append(f"{arrow}{stop} {session.world.names.word(segment, at):16}  {text}")
    return lines


def listing(session, segment, word, count, marks=frozenset()):
    """The source around a word, or else the instructions."""
    found = source_lines(session, segment, word, count, marks)
    if found is not None:
        return found
    return code_lines(session, segment, first_word(word, count), count, marks)


def first_word(word, count):
    """The first of this number of words around a word."""
    return max(0, word - count // 3)


# Words of memory.


def octal_lines(session, segment, word, words):
    return in_lines(session, segment, word, [word_text(found) for found in words])


def decimal_lines(session, segment, word, words):
    texts = [ABSENT if found is None else str(signed(found, 36)) for found in words]
    return in_lines(session, segment, word, texts)


def character_lines(session, segment, word, words):
    texts = [ABSENT if found is None else f'"{characters(found)}"' for found in words]
    return in_lines(session, segment, word, texts)


def in_lines(session, segment, word, texts):
    """Lines of four words each. Lines in which no word is there are one line together."""
    name_of = session.world.names.word
    lines, absent = [], None
    for first in range(0, len(texts), WORDS_IN_LINE):
        found = texts[first : first + WORDS_IN_LINE]
        is_absent = set(found) == {ABSENT}
        if is_absent and absent is not None:
            last = name_of(segment, word + first + len(found) - 1)
            lines[-1] = f"{name_of(segment, word + absent)}  {ABSENT}, up to {last}"
            continue
        absent = first if is_absent else None
        lines.append(f"{name_of(segment, word + first)}  " + " ".join(found))
    return lines


def word_text(found):
    return ABSENT if found is None else f"{found:012o}"


def characters(word):
    """The four characters of a word; those that can't be shown as octal numbers."""
    return "".join(character(word >> shift & BYTE) for shift in (27, 18, 9, 0))


def character(byte):
    shown = chr(byte)
    return shown if 0o40 <= byte < 0o177 and shown not in '\\"' else f"\\{byte:03o}"


def instruction_words(session, segment, word, words):
    return code_lines(session, segment, word, len(words), session.active_breaks())


def pair_lines(session, segment, word, words):
    """Pairs of words as pointers. The first word is rounded down to an even one by the caller."""
    names, lines = session.world.names, []
    for at in range(0, len(words) - 1, 2):
        text = pair_text(names, words[at], words[at + 1])
        lines.append(f"{names.word(segment, word + at)}  {text}")
    return lines


def pair_text(names, even, odd):
    if even is None or odd is None:
        return ABSENT
    both = f"{even:012o} {odd:012o}"
    if tag_of(even) == ITS_TAG:
        pointer = pointer_of(even, odd)
        return f"{both}  its {pointer.text()}  {names.word(pointer.segment, pointer.word)}"
    if tag_of(even) == ITP_TAG:
        return f"{both}  itp pr{even >> 33}|{odd >> 18:o}"
    return both


def breakpoint_lines(session):
    """The breakpoints and watchpoints."""
    rows = []
    for number, added in sorted({**session.breaks, **session.watches}.items()):
        is_watch = hasattr(added, "what")
        where = added.what.text if is_watch else added.text
        if not is_watch:
            file, line = session.source_line(*numbers_of(added.place))
            where += f"  {file}:{line}" if line else ""
            where += f"  if {added.condition.text}" if added.condition else ""
        kind = "watch" if is_watch else "tbreak" if added.temporary else "break"
        rows.append([str(number), kind,
                     "on" if added.enabled else "off", where, f"hits {added.hits}"])
    return aligned(rows) if rows else ["no breakpoints and no watchpoints"]


def service_text(line):
    """A line of the linker as it is; of the console what it has written."""
    written = console_written([line])
    return line if written is None else written
