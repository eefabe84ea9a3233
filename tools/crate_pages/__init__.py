"""Reads what a crate offers from its sources, and writes the page of each crate in docs/reference."""
