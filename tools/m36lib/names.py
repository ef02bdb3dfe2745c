"""Names for segments and words in the sentences of an account."""


class Names:
    """Plain names: `00102` for a segment, `00102|12` for a word. A folder has better ones."""

    def segment(self, number):
        return f"segment {number:05o}"

    def word(self, segment, word):
        return f"{segment:05o}|{word:o}"


PLAIN = Names()
