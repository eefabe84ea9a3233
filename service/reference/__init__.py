"""Implements the rules a second time, slowly and plainly, from the documents alone: its author had not seen the crates."""
