"""The language server: what it knows of sources and boot texts, and how it answers."""
