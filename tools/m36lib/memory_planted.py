"""Places that answer NoMemory without a refused request, which tools/memory-check must report.

The first twelve are tables that are full. The contract of each table is met with the fault in it,
since no contract says that memory is found. The others turn an arm, a conversion or a name."""

from typing import NamedTuple


class Fault(NamedTuple):
    """A source, a text that it has once, and what is put in its place."""

    file: str
    old: str
    new: str


def full(file, old, fault, test="self.items.len() >= 4096"):
    """A table whose addition `old` fails by `fault` when the table is full."""
    return Fault(f"crates/{file}", old, f"if {test} {{ {fault} }} {old}")


def before(file, old, fault):
    """A table before whose addition `old` there is a statement that fails."""
    return Fault(f"crates/{file}", old, f"{fault} {old}")


def turned(file, old, new):
    """A text in place of another one."""
    return Fault(f"crates/{file}", old, new)


PUSH = "self.items.push(x)?;"

FULL_TABLES = (
    full("m36_word/src/words.rt", PUSH, "return Err(NoMemory);"),
    full("m36_outside/src/text.rt", PUSH, "Err(AllocError)?;"),
    full("alm_tokens/src/rows.rt", PUSH, "return Err(NoMemory::from(AllocError));"),
    full("alm_parse/src/source.rt", PUSH, "return Err(NoMemory {});"),
    before("alm_lines/src/symbols.rt", "self.sums.insert(name, sum)?;",
           "match self.sums.len() { 4096 => return Err(NoMemory), _ => {} }"),
    before("m36_link/src/known.rt", "names.insert(name, target)?;",
           "(names.len() < 64).then_some(()).ok_or(NoMemory)?;"),
    before("m36_acl/src/denied.rt", "self.items.push(line)?;",
           "let Ok(_) = u8::try_from(self.items.len()) else { return Err(NoMemory); };"),
    before("m36_dir/src/reading.rt", "lines.push(line)?;",
           "u8::try_from(lines.len()).map_err(|_| NoMemory)?;"),
    before("m36_bindfile/src/line.rt", PUSH,
           "const FULL: NoMemory = NoMemory; if self.items.len() > 99 { return Err(FULL); }"),
    before("cmd_folder/src/files.rt", "self.items.push(words)?;",
           "match u8::try_from(self.items.len()) { Err(_) => return Err(NoMemory), Ok(_) => {} }"),
    before("m36_page/src/table.rt", "let mut tables = Vec::with_capacity(alloc, given.len())?;",
           "if given.len() > 99 { let _: Vec<u64> = Vec::with_capacity(alloc, usize::MAX)?; }"),
    full("m36_procs/src/reader.rt", "all.push(regs)?;", "return NoMemory.into();",
         "all.len() == 4"),
)

TURNED = (
    turned("cmd_make/src/sets.rt", "use m36_word::NoMemory", "use m36_word::NoMemory as Full"),
    turned("m36_super/src/linking.rt", "Err(LinkFault::NoMemory) =>", "Err(_) =>"),
    turned("cmd_make/src/running.rt", "AfterTurn::NoMemory => return Err", "_ => return Err"),
    turned("m36_link/src/file.rt", "Err(ObjectFault::NoMemory) =>",
           "Err(ObjectFault::NoMemory | ObjectFault::O1(_)) =>"),
    turned("m36_back/src/past.rt", "Err(_) => Err(m),", "_ => Err(m),"),
    turned("m36/src/words.rt", "Err(FillError::TooLong) => double(&mut buffer)?,",
           "Err(FillError::TooLong) => return Err(NoMemory),"),
    turned("m36/src/main.rt", "perform_command(&rt).unwrap_or", "perform_command(&rt).ok().unwrap_or"),
    turned("m36_word/src/memory.rt", "Debug, PartialEq", "Debug, Default, PartialEq"),
    turned("m36_word/src/memory.rt", "impl From<AllocError> for", "impl From<Utf8Error> for"),
    turned("obj36/src/fault.rt", "impl From<NoMemory> for", "impl From<TryFromIntError> for"),
    turned("m36_program/src/reading.rt", "ReadAnswer::TooLarge => Err(refuse(alloc, name, Code::F2",
           "ReadAnswer::TooLarge => return Err(Status::NoMemory), ReadAnswer::Absent => Err(("),
)

PLANTED = (*FULL_TABLES, *TURNED)
