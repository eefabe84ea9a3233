"""Translates messages between words and bytes."""
