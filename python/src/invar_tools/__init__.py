"""Equations that `invar` finds, for programs: calls of it, polynomials, certificates, and texts of its languages.

    >>> from invar_tools import Invar
    >>> for equation in Invar().basis("vars a, b, q, r; init q=0, r=a; branch { r=r-b; q=q+1; }"):
    ...     print(equation.flat(), "= 0")
    b*q - a + r = 0
"""
from __future__ import annotations

from .certificates import Certificate, read_certificate
from .client import Invar, Refused
from .faults import Fault
from .loops import Chain, FurtherLoop, Loop, read_chain, read_equation, read_loop
from .polynomials import Polynomial
from .programs import Program, read_program
from .sequences import Sequence, read_sequences

__all__ = [
    "Certificate", "Chain", "Fault", "FurtherLoop", "Invar", "Loop", "Polynomial", "Program", "Refused", "Sequence",
    "read_certificate", "read_chain", "read_equation", "read_loop", "read_program", "read_sequences",
]
