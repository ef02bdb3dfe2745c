"""Source files of Rattle as trees of tokens.

A token is a word, a number, a text or a mark. A group is what is between two brackets. Comments,
lifetimes, ghost items, contracts and most attributes are left out."""

import re
from typing import NamedTuple

TOKEN = re.compile(
    r"""(?P<space>\s+|//[^\n]*)
      |(?P<comment>/\*)
      |(?P<text>b?"(?:\\.|[^"\\])*"|b?'(?:\\[^\n]{1,8}?|[^'\\\n])')
      |(?P<lifetime>'\w+)
      |(?P<word>[^\W\d]\w*)
      |(?P<number>\d\w*(?:\.\d\w*)?)
      |(?P<mark>::|=>|->|==|!=|<=|>=|&&|\|\||\.\.=|\.\.|.)""",
    re.VERBOSE | re.DOTALL,
)
CLOSES = {"(": ")", "[": "]", "{": "}"}
CLAUSES = {"requires", "ensures", "decreases"}
KEPT_ATTRIBUTES = {"derive", "default", "from"}


class Token(NamedTuple):
    """A word, a number, a text or a mark, with its line."""

    text: str
    line: int


class Group(NamedTuple):
    """What is between two brackets; `text` is the first of them."""

    text: str
    line: int
    inside: list


def past_comment(text, place):
    """The place after a comment in `/* */`, which may have others in it."""
    depth = 0
    for mark in re.finditer(r"/\*|\*/", text[place:]):
        depth += 1 if mark[0] == "/*" else -1
        if not depth:
            return place + mark.end()
    return len(text)


def tokens(text):
    """The tokens of a text."""
    place, line = 0, 1
    while place < len(text):
        found = TOKEN.match(text, place)
        end = past_comment(text, place) if found["comment"] else found.end()
        if found.lastgroup not in ("space", "comment", "lifetime"):
            yield Token(found[0], line)
        line += text.count("\n", place, end)
        place = end


def tree(text):
    """The tokens of a text, those between brackets in groups."""
    outer, open_groups = [], []
    for token in tokens(text):
        level = open_groups[-1].inside if open_groups else outer
        if token.text in CLOSES:
            open_groups.append(Group(token.text, token.line, []))
            level.append(open_groups[-1])
        elif open_groups and token.text == CLOSES[open_groups[-1].text]:
            open_groups.pop()
        elif token.text in CLOSES.values():
            raise ValueError(f"line {token.line}: {token.text} closes nothing")
        else:
            level.append(token)
    if open_groups:
        raise ValueError(f"line {open_groups[-1].line}: {open_groups[-1].text} is not closed")
    return without_proofs(outer)


def is_group(node, bracket):
    """Whether a node is a group of these brackets."""
    return isinstance(node, Group) and node.text == bracket


def after_ghost(nodes, place):
    """The place after a ghost item: its semicolon, or the braces that it ends with."""
    while place < len(nodes):
        node, place = nodes[place], place + 1
        if node.text == ";" or is_group(node, "{") and text_at(nodes, place) != ";":
            break
    return place


def after_clause(nodes, place):
    """The place after a clause of a contract."""
    while place < len(nodes) and not is_group(nodes[place], "{"):
        place += 1
    return place + 1


def text_at(nodes, place):
    """The text of a node, or an empty one after the last."""
    return nodes[place].text if place < len(nodes) else ""


def without_proofs(nodes):
    """Nodes without ghost items and contracts, and without attributes but those that are kept."""
    kept, place = [], 0
    while place < len(nodes):
        node = nodes[place]
        if node.text == "ghost" and not isinstance(node, Group):
            place = after_ghost(nodes, place)
            continue
        if node.text in CLAUSES:
            place = after_clause(nodes, place)
            continue
        if node.text == "#" and text_at(nodes, place + 1) in ("[", "!"):
            place += 2 if text_at(nodes, place + 1) == "[" else 3
            attribute = nodes[place - 1]
            if text_at(attribute.inside, 0) in KEPT_ATTRIBUTES:
                kept.append(Group("#", attribute.line, attribute.inside))
            continue
        if isinstance(node, Group):
            node = Group(node.text, node.line, without_proofs(node.inside))
        kept.append(node)
        place += 1
    return kept


def flat(nodes):
    """The texts of nodes in order, with those of groups between their brackets."""
    texts = []
    for node in nodes:
        texts.append(node.text)
        if isinstance(node, Group):
            texts += [*flat(node.inside), CLOSES.get(node.text, "")]
    return texts


def find(nodes, place, texts):
    """The first place from here on with one of the texts, or the end."""
    while place < len(nodes) and nodes[place].text not in texts:
        place += 1
    return place


def past_generics(nodes, place):
    """The place after the generic parameters or arguments that begin here."""
    depth = 0
    while place < len(nodes):
        depth += {"<": 1, ">": -1}.get(nodes[place].text, 0)
        place += 1
        if not depth:
            break
    return place


def last_word(texts):
    """The last word of a path, without its generic arguments."""
    path = texts[:texts.index("<")] if "<" in texts else texts
    return path[-1] if path else ""


def header(nodes, place):
    """What the `impl` here implements, of which type, for which type, and the place of its body."""
    end = find(nodes, place, {"{"})
    start = place + 1
    if text_at(nodes, start) == "<":
        start = past_generics(nodes, start)
    texts = flat(nodes[start:end])
    if "where" in texts:
        texts = texts[:texts.index("where")]
    if "for" not in texts:
        return "", "", last_word(texts), end
    split = texts.index("for")
    trait, owner = texts[:split], texts[split + 1:]
    of = trait[trait.index("<") + 1:-1] if "<" in trait else []
    return last_word(trait), last_word(of), last_word(owner), end
