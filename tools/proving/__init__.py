"""Runs the prover on functions of a crate over holes in other proofs, and reads what it says."""
