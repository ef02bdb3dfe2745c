"""The links of a page in Markdown, and a manual page made from what a tool says of itself."""

import re
import subprocess

LINK = re.compile(r"\]\(([^)#\s]+)(?:#[^)]*)?\)")


class NoHelp(Exception):
    """A tool does not say what it does."""


def links(text):
    """Returns the targets of the links that lead to files."""
    return [it for it in LINK.findall(text) if "://" not in it and not it.startswith("mailto:")]


def plain(text):
    """Returns a text as troff prints it unchanged."""
    text = text.replace("\\", "\\e").replace("-", "\\-")
    return re.sub(r"^([.'])", r"\\&\1", text, flags=re.M)


def manual(tool, command):
    """Returns the manual page of a tool, made from what its --help prints."""
    ran = subprocess.run([tool, "--help"], capture_output=True, text=True, check=False)
    text = ran.stdout.strip()
    if ran.returncode or not text:
        raise NoHelp(f"{tool} --help ended with status {ran.returncode} and printed "
                     f"{len(text)} characters")
    text = text.replace(f"tools/{tool.name}", command)
    first = re.split(r"[.:](?:\s|$)", " ".join(text.split("\n\n")[0].split()))[0]
    name = first[0].lower() + first[1:]
    return f""".TH {command.upper().replace("-", chr(92) + "-")} 1 "" "m36" "User commands"
.SH NAME
{plain(command)} \\- {plain(name)}
.SH DESCRIPTION
.nf
{plain(text)}
.fi
.SH SEE ALSO
.BR m36 (1)
"""
