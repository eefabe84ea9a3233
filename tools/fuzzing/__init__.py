"""Fuzzes the library for C."""
