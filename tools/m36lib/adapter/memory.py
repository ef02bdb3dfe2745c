"""Disassembly and memory."""

import base64

from ..disassemble import disassemble
from ..protocol.members import count, member, optional
from .addresses import SEGMENT_WORDS, WORD_BYTES, address_of, byte_of, bytes_of_word, word_of
from .channel import Refused

MOST_INSTRUCTIONS = 4096
MOST_BYTES = 1 << 16


class Memory:
    """Words of segments."""

    def __init__(self, adapter):
        self.adapter = adapter

    def handlers(self):
        return {"disassemble": self.disassemble, "readMemory": self.read_memory}

    @property
    def session(self):
        return self.adapter.session

    def disassemble(self, arguments):
        wanted = count(arguments, "instructionCount")
        if wanted > MOST_INSTRUCTIONS:
            raise Refused(f"at most {MOST_INSTRUCTIONS} instructions at once")
        byte = byte_of(self.session, member(arguments, "memoryReference", str))
        segment, word = word_of(byte + optional(arguments, "offset", int, 0))
        first = word + optional(arguments, "instructionOffset", int, 0)
        return {"instructions": [*self.instructions(segment, first, wanted)]}

    def instructions(self, segment, first, wanted):
        """As many instructions as are asked for; those outside of the segment are no words."""
        start, end = max(first, 0), max(min(first + wanted, SEGMENT_WORDS), 0)
        found = self.session.words(segment, start, end - start) if end > start else []
        for word in range(first, first + wanted):
            value = found[word - start] if start <= word < end else None
            yield self.instruction(segment, word, value)

    def instruction(self, segment, word, value):
        """An instruction as the protocol has it."""
        byte = WORD_BYTES * (segment * SEGMENT_WORDS + word)
        if value is None:
            return {"address": f"0x{max(byte, 0):x}", "instruction": "no word",
                    "presentationHint": "invalid"}
        found = {
            "address": address_of(segment, word),
            "instructionBytes": f"{value:012o}",
            "instruction": f"{segment:05o}|{word:06o}  {disassemble(value)}",
        }
        name = self.session.world.names.word(segment, word)
        if "$" in name and "+" not in name:
            found["symbol"] = name
        file, line = self.session.source_line(segment, word)
        if file:
            found["location"] = {"name": file, "path": self.adapter.sources.path_of(file)}
            found["line"] = line - 1 + self.adapter.first_line
        return found

    def read_memory(self, arguments):
        byte = byte_of(self.session, member(arguments, "memoryReference", str))
        byte += optional(arguments, "offset", int, 0)
        wanted = min(count(arguments, "count"), MOST_BYTES)
        if byte < 0:
            raise Refused("the address is below 0")
        segment, word = word_of(byte)
        data = b"".join(map(bytes_of_word, self.present(segment, word, wanted // WORD_BYTES + 2)))
        data = data[byte % WORD_BYTES :][:wanted]
        return {
            "address": f"0x{byte:x}",
            "data": base64.b64encode(data).decode("ascii"),
            "unreadableBytes": wanted - len(data),
        }

    def present(self, segment, word, wanted):
        """Words of a segment up to the first that is absent."""
        for value in self.session.words(segment, word, min(wanted, SEGMENT_WORDS - word)):
            if value is None:
                return
            yield value
