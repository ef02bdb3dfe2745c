"""A recorded run as the data of a page: tables of what recurs, and a short row for each turn.

    data = encode(start, turns)      # both as `tools/look --json` writes them

The page decodes it (page/run.js). What recurs is in `tables`, once each, and named by its number
there. A step is a row

    [head, final, place, changes, words, values, differences]

whose empty fields at the end are left out. `head` is a row of `tables.heads`: spot, instruction,
outcome, sentences, references and links of the chain. A sentence is `rN` (reference N of the step),
`lN` (link N) or the number of a text. `final` is the final address of the trace line. A text has
HOLE12 and HOLE6 where words of 12 and 6 octal digits are; `values` has these as numbers, in their
order. `place` is where the next instruction is, and 0 where that is the next word after `next` and
the same word after all else. `changes` has the number of a register and its value after the step,
in pairs. `words` has a place and the values before and after. All other turns are kept as they
are."""

import json
import re

HOLE12, HOLE6 = "\ue000", "\ue001"
OCTAL = re.compile(r"(?<![0-7])(?:[0-7]{12}|[0-7]{6})(?![0-7])")
REGISTERS = ["a", "q", *(f"x{n}" for n in range(8)), *(f"pr{n}" for n in range(8)), "indicators",
             "dbr"]
NUMBERS = {"a", "q", *(f"x{n}" for n in range(8))}
TABLES = ("spots", "instructions", "finals", "outcomes", "texts", "references", "links", "places",
          "values", "heads")


class Table:
    """Rows, each once, by their numbers."""

    def __init__(self):
        self.numbers = {}

    def number(self, row):
        return self.numbers.setdefault(row, len(self.numbers))

    def rows(self):
        return list(self.numbers)


def place_text(place):
    return f"{place['ring']}:{place['segment']}|{place['word']}" if place else 0


def split_text(text):
    """A text with holes, and the numbers that were there."""
    values = []
    if HOLE12 in text or HOLE6 in text:
        return text, values

    def hole(found):
        values.append(int(found[0], 8))
        return HOLE12 if len(found[0]) == 12 else HOLE6

    return OCTAL.sub(hole, text), values


class Encoder:
    """The tables of a run while its turns are read."""

    def __init__(self):
        self.tables = {name: Table() for name in TABLES}

    def number(self, table, row):
        return self.tables[table].number(row)

    def step(self, turn):
        account = turn["account"]
        values = []
        lead = 1 if "process" in turn else 0
        fields = turn["trace"].split(" ", 8 + lead)[lead:]
        known = {link["text"]: f"l{number}" for number, link in enumerate(account["chain"])}
        known.update({f"{asked['question']} {asked['answer']}": f"r{number}"
                      for number, asked in enumerate(account["references"])})
        head = self.number("heads", (
            self.spot(turn),
            self.number("instructions", (turn["instruction"], turn["word"])),
            self.outcome(account["outcome"], fields[8]),
            tuple(self.sentence(each, known, values) for each in account["sentences"]),
            tuple(self.reference(each) for each in account["references"]),
            tuple(self.link(each) for each in account["chain"]),
            account["unknown"] or 0,
        ))
        final = self.number("finals", fields[4])
        row = [head, final, self.place(turn), self.changes(turn), self.words(turn), values,
               turn["differences"]]
        while len(row) > 2 and not row[-1]:
            row.pop()
        return row

    def spot(self, turn):
        names = ("ring", "segment", "word", "name", "file", "line")
        return self.number("spots", (*(turn["at"][name] for name in names), turn.get("process", 0)))

    def outcome(self, outcome, traced):
        """By the account, and by the machine as the trace line has it."""
        return self.number("outcomes", (outcome["kind"], traced, outcome["text"], outcome["rule"],
                                        place_text(outcome["place"])))

    def sentence(self, sentence, known, values):
        """The number of a sentence's text, or that of the link or the reference that says it."""
        if sentence["text"] in known:
            return known[sentence["text"]]
        text, found = split_text(sentence["text"])
        values += found
        return self.number("texts", (text, sentence["rule"], sentence["part"]))

    def reference(self, row):
        return self.number("references", (
            row["kind"], place_text(row["place"]), row["count"], row["link"], row["question"],
            row["answer"], int(row["allowed"]), row["fault"], row["violation"],
            place_text(row["refused_at"]), row["rule"],
        ))

    def link(self, row):
        return self.number("links", (
            row["kind"], place_text(row["point"]), place_text(row["read"]), tuple(row["words"]),
            tuple((each["ring"], each["why"]) for each in row["rings"]), row["text"], row["rule"],
        ))

    def place(self, turn):
        """Where the next instruction is, or 0 where that is where it is expected."""
        at, after = turn["at"], turn["registers"]
        if "ring" not in after:
            return 0
        word = int(at["word"], 8)
        if turn["account"]["outcome"]["kind"] == "next":
            word = (word + 1) % (1 << 18)
        expected = (at["ring"], at["segment"], f"{word:06o}")
        if (after["ring"], after["segment"], after["word"]) == expected:
            return 0
        return place_text(after)

    def changes(self, turn):
        found = []
        for change in turn["changed"]:
            name, after = change["register"], change["after"]
            if name in NUMBERS:
                found += [REGISTERS.index(name), int(after, 8)]
            elif name in REGISTERS:
                found += [REGISTERS.index(name), self.number("values", after)]
        return found

    def words(self, turn):
        found = []
        for word in turn["words"]:
            place = self.number("places", (word["segment"], word["word"], word["name"]))
            found += [place, octal(word["before"]), octal(word["after"])]
        return found

    def data(self, start, first, rows):
        tables = {name: table.rows() for name, table in self.tables.items()}
        return {"start": start, "registers": REGISTERS, "first": first, "tables": tables,
                "turns": rows}


def octal(text):
    return int(text, 8) if text is not None else None


def encode(start, turns):
    """The data of a page from the turns as JSON has them."""
    encoder, first, rows = Encoder(), None, []
    for turn in turns:
        if turn["turn"] == "step":
            first = first or registers_before(turn)
            rows.append(encoder.step(turn))
        else:
            rows.append(turn)
    return encoder.data(start, first, rows)


def registers_before(turn):
    """The registers before a step, in the order of REGISTERS."""
    after = turn["registers"]
    if "x" not in after:
        return [0, 0, *[""] * 16, "......", ""]
    found = dict(zip(REGISTERS, [after["a"], after["q"], *after["x"], *after["pr"],
                                 after["indicators"], ""]))
    for change in turn["changed"]:
        found[change["register"]] = change["before"]
    return [int(found[name], 8) if name in NUMBERS else found[name] for name in REGISTERS]


def as_script(data):
    """JSON that can be written inside a script element: no `<` and no line separators in it."""
    text = json.dumps(data, ensure_ascii=False, separators=(",", ":"))
    for character in "<>&\u2028\u2029":
        text = text.replace(character, f"\\u{ord(character):04x}")
    return text.encode("utf-8", "surrogatepass").decode("utf-8", "replace")
