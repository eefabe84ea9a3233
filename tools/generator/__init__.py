"""Generates cases: a command of the program and its input, for each seed."""
