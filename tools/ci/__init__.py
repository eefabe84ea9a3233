"""Checks that CI runs after the proofs."""
