"""The cases of tools/build-check."""
