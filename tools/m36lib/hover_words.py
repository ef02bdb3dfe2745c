"""What a hover says of the parts of sources and boot texts that are no instructions."""

SECTIONS = {
    "text": "the instructions and constants of the object, which are read and executed in place",
    "link": "the static part of the linkage section, of which each ring has its own",
    "static": "a section of static words of its own, of which each ring has its own",
}
OPERATIONS = {
    "entry": "The symbols are entries of the object, in this order: other segments name them by "
             "SEGMENT$NAME.",
    "segdef": "The symbols are definitions of the object: other segments name them by "
              "SEGMENT$NAME.",
    "equ": "The symbol is the number of the expression.",
    "use": "The lines below go into this section.",
    "dec": "A word for each decimal number.",
    "oct": "A word for each octal number.",
    "aci": "The characters of the text, four in a word, with zeros at the end.",
    "zero": "A word of two halves.",
    "bss": "The symbol is a label here, and as many words of zeros follow.",
    "even": "A word of zeros where the place is odd.",
    "entrybound": "Outer rings may call the words before this place, and none after it. A gate "
                  "needs it.",
    "end": "Nothing after this line is read.",
}
REGISTERS = {
    "n": "the address as it is",
    "au": "the address plus bits 0-17 of A",
    "qu": "the address plus bits 0-17 of Q",
    "du": "the operand is the address itself, in bits 0-17; memory is not read",
    "ic": "the address plus the place of the instruction",
    "al": "the address plus bits 18-35 of A",
    "ql": "the address plus bits 18-35 of Q",
    "dl": "the operand is the address itself, in bits 18-35; memory is not read",
    **{f"x{number}": f"the address plus X{number}" for number in range(8)},
}
TALLIES = {
    "i": "the word at the address is a tally word: its address is used",
    "id": "the word at the address is a tally word: its address is used, then it goes up by 1 and "
          "the tally down",
    "di": "the word at the address is a tally word: its address goes down by 1 and the tally up, "
          "then the address is used",
    "ad": "the word at the address is a tally word: its address is used, then it goes up by the "
          "increment and the tally down",
    "sd": "the word at the address is a tally word: its address goes down by the increment and the "
          "tally up, then the address is used",
}
POINTERS = ("ap", "ab", "bp", "bb", "lp", "lb", "sp", "sb")
BOOT_LINES = {
    "frames": "How many pageable frames of core there are. The program needs 24.",
    "work": "The working directory, which is searched first.",
    "library": "A directory that is searched after the working directory, in the order of these "
               "lines.",
    "segment": "A segment: its directory, its name, the file of its words, its kind, its mode and "
               "its ring brackets. Rings 0 to R1 may write it, rings 0 to R2 read it, rings R1 to "
               "R2 execute it, and rings up to R3 call into it through its gates.",
    "name": "A further name of the segment above.",
    "start": "Where the machine starts: the ring, and the segment and its entry.",
}
KINDS = {
    "object": "an object segment, as `alm` or `bind` writes it",
    "gate": "an object segment whose entries outer rings may call",
    "data": "words of no form",
}


def register_words(name):
    """What a register of a modifier adds; `0` to `7` are index registers."""
    return REGISTERS.get(f"x{name}" if name.isdigit() else name)


def modifier_words(text):
    """What a modifier does, or None where it is none."""
    if text in TALLIES:
        return TALLIES[text]
    if text == "*":
        return "the word at the address is an indirect word"
    if text.startswith("*"):
        added = register_words(text[1:])
        return f"the word at the address is an indirect word; then {added}" if added else None
    if text.endswith("*"):
        added = register_words(text[:-1])
        return f"{added}; the word there is an indirect word" if added else None
    return register_words(text)


def pointer_number(text):
    """The number of a pointer register, or None."""
    if text in POINTERS:
        return POINTERS.index(text)
    return int(text[2]) if text[:2] == "pr" and text[2:].isdigit() and len(text) == 3 else None
