"""The tests of the editors' servers and files, which tools/editors-check makes."""
