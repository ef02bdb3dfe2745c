"""Lexers for Pygments: sources in ALM, and boot texts of m36.

    pygmentize -x -l m36_lexers.py:AlmLexer main.alm
    pygmentize -x -l m36_lexers.py:BootLexer boot

`editors/make` writes the lists of names."""

from pygments.lexer import RegexLexer, bygroups, words
from pygments.token import (
    Comment, Error, Keyword, Name, Number, Operator, Punctuation, String, Text, Whitespace,
)

__all__ = ["AlmLexer", "BootLexer"]

# begin names
INSTRUCTIONS = (
    "absa", "ada", "adaq", "adl", "adla", "adlaq", "adlq", "adlx0", "adlx1", "adlx2", "adlx3",
    "adlx4", "adlx5", "adlx6", "adlx7", "adq", "adx0", "adx1", "adx2", "adx3", "adx4", "adx5",
    "adx6", "adx7", "alr", "als", "ana", "anaq", "anq", "ansa", "ansq", "ansx0", "ansx1", "ansx2",
    "ansx3", "ansx4", "ansx5", "ansx6", "ansx7", "anx0", "anx1", "anx2", "anx3", "anx4", "anx5",
    "anx6", "anx7", "aos", "arl", "ars", "asa", "asq", "asx0", "asx1", "asx2", "asx3", "asx4",
    "asx5", "asx6", "asx7", "awca", "awcq", "call6", "camp", "cams", "cana", "canaq", "canq",
    "canx0", "canx1", "canx2", "canx3", "canx4", "canx5", "canx6", "canx7", "cmk", "cmpa", "cmpaq",
    "cmpq", "cmpx0", "cmpx1", "cmpx2", "cmpx3", "cmpx4", "cmpx5", "cmpx6", "cmpx7", "cnaa",
    "cnaaq", "cnaq", "cnax0", "cnax1", "cnax2", "cnax3", "cnax4", "cnax5", "cnax6", "cnax7", "dis",
    "div", "drl", "eaa", "eaq", "eax0", "eax1", "eax2", "eax3", "eax4", "eax5", "eax6", "eax7",
    "epaq", "epbp0", "epbp1", "epbp2", "epbp3", "epbp4", "epbp5", "epbp6", "epbp7", "epp0", "epp1",
    "epp2", "epp3", "epp4", "epp5", "epp6", "epp7", "era", "eraq", "erq", "ersa", "ersq", "ersx0",
    "ersx1", "ersx2", "ersx3", "ersx4", "ersx5", "ersx6", "ersx7", "erx0", "erx1", "erx2", "erx3",
    "erx4", "erx5", "erx6", "erx7", "lca", "lcaq", "lcq", "lcx0", "lcx1", "lcx2", "lcx3", "lcx4",
    "lcx5", "lcx6", "lcx7", "lda", "ldac", "ldaq", "ldbr", "ldi", "ldq", "ldqc", "ldx0", "ldx1",
    "ldx2", "ldx3", "ldx4", "ldx5", "ldx6", "ldx7", "llr", "lls", "lpri", "lprp0", "lprp1",
    "lprp2", "lprp3", "lprp4", "lprp5", "lprp6", "lprp7", "lrl", "lrs", "lxl0", "lxl1", "lxl2",
    "lxl3", "lxl4", "lxl5", "lxl6", "lxl7", "mme", "mpy", "neg", "negl", "nop", "ora", "oraq",
    "orq", "orsa", "orsq", "orsx0", "orsx1", "orsx2", "orsx3", "orsx4", "orsx5", "orsx6", "orsx7",
    "orx0", "orx1", "orx2", "orx3", "orx4", "orx5", "orx6", "orx7", "qlr", "qls", "qrl", "qrs",
    "rtcd", "sba", "sbaq", "sbla", "sblaq", "sblq", "sblx0", "sblx1", "sblx2", "sblx3", "sblx4",
    "sblx5", "sblx6", "sblx7", "sbq", "sbx0", "sbx1", "sbx2", "sbx3", "sbx4", "sbx5", "sbx6",
    "sbx7", "sdbr", "spbp0", "spbp1", "spbp2", "spbp3", "spbp4", "spbp5", "spbp6", "spbp7", "spri",
    "spri0", "spri1", "spri2", "spri3", "spri4", "spri5", "spri6", "spri7", "ssa", "ssq", "ssx0",
    "ssx1", "ssx2", "ssx3", "ssx4", "ssx5", "ssx6", "ssx7", "sta", "stac", "stacq", "staq", "stcd",
    "sti", "stq", "stx0", "stx1", "stx2", "stx3", "stx4", "stx5", "stx6", "stx7", "stz", "swca",
    "swcq", "sxl0", "sxl1", "sxl2", "sxl3", "sxl4", "sxl5", "sxl6", "sxl7", "szn", "sznc", "tmi",
    "tmoz", "tnc", "tnz", "tov", "tpl", "tpnz", "tra", "trc", "tsp0", "tsp1", "tsp2", "tsp3",
    "tsp4", "tsp5", "tsp6", "tsp7", "tsx0", "tsx1", "tsx2", "tsx3", "tsx4", "tsx5", "tsx6", "tsx7",
    "ttf", "tze",
)
OPERATIONS = (
    "aci", "bss", "dec", "end", "entry", "entrybound", "equ", "even", "oct", "segdef", "use",
    "zero",
)
MODIFIERS = (
    r"\*|sd|i|ad|di|id|\*(?:n|au|qu|du|ic|al|ql|dl|x?[0-7])|(?:n|au|qu|du|ic|al|ql|"
    r"dl|x?[0-7])\*?"
)
POINTERS = r"pr[0-7]|ap|ab|bp|bb|lp|lb|sp|sb"
LINES = r"(?:frames|work|library|segment|name|start)"
KINDS = r"(?:object|gate|data)"
# end names

SYMBOL = r"[A-Za-z_][A-Za-z0-9_.]*"
AFTER = r"(?=[ \t\"\n]|$)"


class AlmLexer(RegexLexer):
    """Sources in ALM."""

    name = "ALM of m36"
    aliases = ["alm"]
    filenames = ["*.alm"]

    tokens = {
        "root": [
            (r"\n", Whitespace),
            (r"[ \t]+", Whitespace),
            (r'".*', Comment.Single),
            (SYMBOL + ":", Name.Label),
            (r"(aci)([ \t]+)(\S)(.*?)(\3|$)", bygroups(
                Keyword.Pseudo, Whitespace, String.Delimiter, String, String.Delimiter), "rest"),
            (words(INSTRUCTIONS, suffix=AFTER), Keyword, "operand"),
            (words(OPERATIONS, suffix=AFTER), Keyword.Pseudo, "operand"),
            (r'[^ \t":\n]+', Error, "operand"),
            (r".", Error),
        ],
        "operand": [
            (r"\n", Whitespace, "#pop"),
            (r"[ \t]+", Whitespace),
            (r'".*', Comment.Single),
            (r"\*?" + SYMBOL + r"\$[A-Za-z0-9_.]*", Name.Namespace),
            (r"(,)(" + MODIFIERS + r")" + AFTER, bygroups(Punctuation, Keyword.Type)),
            (r"(" + POINTERS + r")(\|)", bygroups(Name.Builtin, Punctuation)),
            (r"[0-9]+\b", Number),
            (SYMBOL, Name),
            (r"[-+*]", Operator),
            (r"[,|]", Punctuation),
            (r".", Error),
        ],
        "rest": [
            (r"\n", Whitespace, "#pop"),
            (r"[ \t]+", Whitespace),
            (r'".*', Comment.Single),
            (r".", Error),
        ],
    }


class BootLexer(RegexLexer):
    """Boot texts of m36."""

    name = "Boot text of m36"
    aliases = ["m36boot"]
    filenames = ["boot"]

    tokens = {
        "root": [
            (r"^" + LINES + r"(?= )", Keyword),
            (KINDS + r"(?= )", Keyword.Type),
            (r"(null|(?=[rewp])r?e?w?p?)((?: [0-7]){3})$", bygroups(Name.Attribute, Number)),
            (r"[A-Za-z0-9_.]*>[A-Za-z0-9_.>]*", String.Other),
            (r"[A-Za-z0-9_.]+\$[A-Za-z0-9_.]+", Name.Function),
            (r"[0-9]+(?![A-Za-z0-9_.])", Number),
            (r"[A-Za-z0-9_.]+", Name),
            (r"\s+", Whitespace),
            (r".", Text),
        ],
    }
