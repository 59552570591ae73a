"""Why there is no answer."""
from __future__ import annotations

NO = 1
NO_ANSWER = 2
"""The statuses of a command that says no, or of one that has no answer. An answer, and yes, is 0."""


class Fault(Exception):
    """Why there is no answer, and the status with which a command ends."""

    status = NO_ANSWER
