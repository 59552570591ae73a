"""Equations of loops in C programs, as loop invariants for Frama-C."""
