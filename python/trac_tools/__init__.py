"""The commands of trac that are written in Python, of its standard library alone."""
