"""Compares the built program with the second implementation, and its commands with one another."""
