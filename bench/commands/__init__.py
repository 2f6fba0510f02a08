"""The commands, a module each: `add_arguments` gives a parser its words, `run` does the work and
returns the status. The first line of a module says what it does.
"""
