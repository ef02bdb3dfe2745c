"""Makes foreign text fit to be shown on a terminal.

File names, sources and words are whatever someone wrote. A character that a terminal could obey, or
that is no valid text, is shown as `?`; a long text is cut.
"""

import textwrap

QUOTED_LIMIT = 60
WIDTH = 100


def plain(text):
    """The text (bytes or str) with a `?` for each character that is not shown as itself."""
    if isinstance(text, bytes):
        text = text.decode("utf-8", "replace")
    return "".join(c if c.isprintable() and c != "\ufffd" else "?" for c in text)


def quoted(text):
    """The text in quotation marks, cut to what is readable in a sentence."""
    shown = plain(text)
    if len(shown) > QUOTED_LIMIT:
        shown = shown[: QUOTED_LIMIT - 3] + "..."
    return f'"{shown}"'


def paragraph(text, width=WIDTH, indent="  "):
    """The text in lines of at most this width, the further ones indented."""
    return textwrap.fill(
        text,
        width,
        subsequent_indent=indent,
        break_long_words=False,
        break_on_hyphens=False,
        replace_whitespace=False,
        drop_whitespace=True,
    )
