"""Plans the slices of operators by the library for C."""
