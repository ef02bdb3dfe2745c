"""Texts that an editor has open, and the files beside them."""

import pathlib
import urllib.parse

from ..texts import read_bytes
from .places import PlacedText

SOURCE_SUFFIX = ".alm"
BOOT = "boot"


def path_of(uri):
    """The path of a file: URI, or None."""
    try:
        parts = urllib.parse.urlsplit(uri)
        path = urllib.parse.unquote(parts.path)
    except ValueError:
        return None
    if parts.scheme != "file" or not path.startswith("/") or "\0" in path:
        return None
    return pathlib.Path(path)


def uri_of(path):
    """The URI of a path."""
    return pathlib.Path(path).as_uri()


class Document(PlacedText):
    """A text that an editor has open."""

    def __init__(self, uri, data, version):
        super().__init__(data)
        self.uri = uri
        self.path = path_of(uri)
        self.version = version

    def is_source(self):
        return bool(self.path) and self.path.suffix == SOURCE_SUFFIX

    def is_boot(self):
        return bool(self.path) and self.path.name == BOOT


class Workspace:
    """The open documents by their URI, and the files beside them."""

    def __init__(self):
        self.documents = {}

    def put(self, uri, text, version):
        """A document as it is now."""
        data = text.encode("utf-8", "replace")
        self.documents[uri] = Document(uri, data, version)

    def drop(self, uri):
        """The document is closed: the file counts from now on."""
        self.documents.pop(uri, None)

    def open_at(self, path):
        """The open document of a path, or None."""
        return next((it for it in self.documents.values() if it.path == path), None)

    def text_at(self, path):
        """The text of a path: what the editor has, or the file. None where there is neither."""
        document = self.open_at(path)
        if document:
            return document
        data = read_bytes(path)
        return None if data is None else PlacedText(data)
