"""The places of the sources that make an answer of a call that found no memory.

`NoMemory`, the errors of the allocator and the variants that pass them on may be made in these
places alone:

- in an arm of a `match`, without a guard, whose pattern is such an answer;
- in `from` of an `impl From` of such an answer;
- in an arm `Err(_)`, or as operand of `unwrap_or`, of one call whose errors are all of this kind.

Two kinds of functions may be called or may answer in these places alone, too: one that reports that
no memory was found (`REPORTS_IT`), and the error of one that hands its argument back when there is
no memory (`HANDS_BACK`). Another name for such an answer, a default of it, and a request for the
largest number of items that a type can count are never allowed."""

from typing import NamedTuple

from m36lib.rattle_source import (
    find, flat, header, last_word, past_generics, text_at, tree,
)

TYPES = {"NoMemory", "AllocError", "AllocFailed"}
NAMES = TYPES | {"OutOfMemory", "Starved", "Starves"}
HANDS_BACK = {("Past", "new")}
REPORTS_IT = {"write_starved"}
REQUESTS = {"with_capacity", "reserve", "reserve_exact", "try_reserve", "try_reserve_exact", "vec"}
ITEMS = {"fn", "impl", "enum", "struct", "type", "use", "match", "let", "const", "static"}




class Function(NamedTuple):
    """A function: its file, the type whose `impl` it is in, and the error of its `Result`."""

    file: str
    owner: str
    name: str
    error: str


class Context(NamedTuple):
    """Where a node is: in which `impl` and function, and in which arms, the innermost last."""

    owner: str = ""
    source: str = ""
    function: str = ""
    arms: tuple = ()

    def within(self, pattern, matched):
        """The same in an arm with this pattern."""
        return self._replace(arms=(*self.arms, (pattern, matched)))


class Place(NamedTuple):
    """A place that makes such an answer, and whether it may."""

    line: int
    text: str
    is_allowed: bool


def error_of(result):
    """The last word of the last argument of a `Result`, or an empty text."""
    if text_at(result, 0) != "Result":
        return ""
    depth, last = 0, []
    for node in result[1:]:
        depth += {"<": 1, ">": -1}.get(node.text, 0)
        if node.text == "," and depth == 1:
            last = []
        elif depth:
            last.append(node.text)
    return last_word(last)


def alternatives(texts):
    """The alternatives of a pattern."""
    parts, depth = [[]], 0
    for text in texts:
        depth += {"(": 1, ")": -1}.get(text, 0)
        if text == "|" and not depth:
            parts.append([])
        else:
            parts[-1].append(text)
    return parts


class Reader:
    """Goes through one file, and collects the functions that it declares and its places."""

    def __init__(self, file, text, functions=()):
        self.file = file
        self.functions = functions
        self.declared = []
        self.places = []
        nodes = tree(text)
        self.imported = self.names_imported(nodes)
        self.walk(nodes, Context())

    @staticmethod
    def names_imported(nodes):
        """The names that the file brings in by `use`."""
        names, place = set(), 0
        while (place := find(nodes, place, {"use"})) < len(nodes):
            end = find(nodes, place, {";"})
            names.update(flat(nodes[place:end]))
            place = end
        return names

    # ---- what is allowed

    def called(self, nodes):
        """The functions that an expression may call, if it is one call."""
        texts = [node.text for node in nodes]
        if len(nodes) < 2 or texts[-1] != "(" or {"?", "=", "&&", "||"} & set(texts):
            return []
        name, before = texts[-2], texts[-3] if len(texts) > 2 else ""
        owner = texts[-4] if before == "::" else None
        found = [each for each in self.functions if each.name == name
                 and (owner is None or each.owner == owner)]
        if before == ".":
            return [each for each in found if each.owner]
        if before == "::":
            return found
        free = [each for each in found if not each.owner]
        return [each for each in free if each.file == self.file] or free

    def is_memory_call(self, nodes):
        """Whether an expression is one call that fails for want of memory alone."""
        found = self.called(nodes)
        return bool(found) and all(
            each.error in TYPES or (each.owner, each.name) in HANDS_BACK for each in found
        )

    def names_it(self, texts):
        """Whether a pattern without alternatives names such an answer, and not a new variable."""
        return "|" not in texts and any(
            text in NAMES and (text in self.imported or texts[at - 1:at] == ["::"])
            for at, text in enumerate(texts)
        )

    def arm_allows(self, pattern, matched):
        """Whether an arm is taken only where no memory was found."""
        texts = flat(pattern)
        if "if" in texts:
            return False
        if all(self.names_it(each) for each in alternatives(texts)):
            return True
        catches = texts[:2] == ["Err", "("] and len(texts) == 4 and texts[2].islower()
        return (catches or texts == ["Err", "(", "_", ")"]) and self.is_memory_call(matched)

    def allows(self, context):
        """Whether such an answer may be made here."""
        if context.function in REPORTS_IT or context.function == "from" and context.source in NAMES:
            return True
        return any(self.arm_allows(*arm) for arm in context.arms)

    # ---- going through

    def note(self, node, text, is_allowed):
        """Notes a place."""
        self.places.append(Place(node.line, text, is_allowed))

    def walk(self, nodes, context):
        """Goes through items or through code."""
        place = 0
        while place < len(nodes):
            place = self.walk_one(nodes, place, context)

    def walk_one(self, nodes, place, context):
        """Goes through what begins here. Returns the place after it."""
        node = nodes[place]
        if node.text in ITEMS:
            return getattr(self, f"walk_{node.text}")(nodes, place, context)
        if node.text == "matches" and text_at(nodes, place + 1) == "!":
            inside = nodes[place + 2].inside
            self.walk(inside[:find(inside, 0, {","})], context)
            return place + 3
        if node.text == "::" and text_at(nodes, place + 1) == "<":
            return past_generics(nodes, place + 1)
        if node.text == "#":
            self.walk_attribute(nodes, place)
        elif hasattr(node, "inside"):
            self.walk_group(nodes, place, context)
        elif node.text in NAMES | REPORTS_IT:
            self.note(node, node.text, self.allows(context))
        elif node.text == "Err" and (context.owner, context.function) in HANDS_BACK:
            self.note(node, node.text, self.allows(context))
        return place + 1

    def walk_group(self, nodes, place, context):
        """Goes through a group. The operand of `unwrap_or` is read as the arm `Err(_)`."""
        node = nodes[place]
        before = [each.text for each in nodes[max(0, place - 2):place]]
        if before == [".", "unwrap_or"]:
            start = place - 2
            while start and nodes[start - 1].text not in (";", "=", "return", ","):
                start -= 1
            context = context.within(tree("Err(_)"), nodes[start:place - 2])
        if REQUESTS & set(before) and "MAX" in flat(node.inside):
            self.note(node, "a request for MAX items", False)
        self.walk(node.inside, context)

    def walk_attribute(self, nodes, place):
        """Notes a derived default of such an answer, and a derived conversion to it."""
        texts = flat(nodes[place].inside)
        after = [node.text for node in nodes[place + 1:place + 5]]
        if texts == ["default"] and set(after[:1]) & NAMES:
            self.note(nodes[place], "a default", False)
        if "Default" in texts and "struct" in after and set(after) & NAMES:
            self.note(nodes[place], "a default", False)

    def walk_fn(self, nodes, place, context):
        """Goes through the body of a function."""
        end = find(nodes, place, {"{", ";"})
        arrow = find(nodes, place, {"->"})
        error = error_of(nodes[arrow + 1:end])
        name = text_at(nodes, place + 1)
        self.declared.append(Function(self.file, context.owner, name, error))
        if text_at(nodes, end) == "{":
            self.walk(nodes[end].inside, context._replace(function=name, arms=()))
        return end + 1

    def walk_impl(self, nodes, place, context):
        """Goes through an `impl`. Of the types themselves only `From` is allowed."""
        trait, source, owner, end = header(nodes, place)
        if owner in TYPES and (trait != "From" or source not in NAMES):
            self.note(nodes[place], f"impl {trait} for {owner}", False)
        self.walk(nodes[end].inside, Context(owner, source if trait == "From" else ""))
        return end + 1

    def walk_enum(self, nodes, place, context):
        """Goes through the attributes of the variants."""
        end = find(nodes, place, {"{"})
        for at, node in enumerate(nodes[end].inside):
            if node.text == "#":
                self.walk_attribute(nodes[end].inside, at)
            elif node.text in NAMES and "from" in flat(nodes[end].inside[at + 1:at + 2]):
                self.note(node, "a derived conversion", False)
        return end + 1

    def walk_struct(self, nodes, place, context):
        """Passes over a struct."""
        return find(nodes, place, {"{", ";"}) + 1

    def walk_named(self, nodes, place, context):
        """Notes another name for such an answer."""
        end = find(nodes, place, {";"})
        texts = flat(nodes[place:end])
        if nodes[place].text == "type" and texts[-1] in NAMES:
            self.note(nodes[place], " ".join(texts), False)
        for at, text in enumerate(texts):
            if text in NAMES and texts[at + 1:at + 2] == ["as"]:
                self.note(nodes[place], f"{text} as {texts[at + 2]}", False)
        return end + 1

    walk_type = walk_use = walk_named

    def walk_match(self, nodes, place, context):
        """Goes through what is matched, and through the arms."""
        end = find(nodes, place, {"{"})
        while "=>" not in [node.text for node in nodes[end].inside]:
            end = find(nodes, end + 1, {"{"})
        matched, arms, at = nodes[place + 1:end], nodes[end].inside, 0
        self.walk(matched, context)
        while at < len(arms):
            arrow = find(arms, at, {"=>"})
            stop = arrow + 2 if text_at(arms, arrow + 1) == "{" else find(arms, arrow, {","})
            body = arms[arrow + 1:stop]
            if "=>" in [node.text for node in body]:
                raise ValueError(f"line {arms[arrow].line}: an arm without its comma")
            self.walk(body, context.within(arms[at:arrow], matched))
            at = stop + (text_at(arms, stop) == ",")
        return end + 1

    def walk_let(self, nodes, place, context):
        """Passes over the pattern and the type of a `let`, a constant or a static."""
        if text_at(nodes, place + 1) in ("fn", "unsafe"):
            return place + 1
        return find(nodes, place, {"=", ";"}) + 1

    walk_const = walk_static = walk_let


def functions_of(texts):
    """The functions of files. Their texts are given by their names."""
    return [each for file, text in texts.items() for each in Reader(file, text).declared]


def places_in(file, text, functions):
    """The places of a file, by the functions of all files."""
    return Reader(file, text, functions).places
