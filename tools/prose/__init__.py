"""Checks the prose of the documents and of the doc comments of crates."""
