"""How a command is called, and how it ends: with a status, and where it has no answer with a line on standard error that says why."""
from __future__ import annotations

import functools
import os
import sys
from argparse import ArgumentParser, RawDescriptionHelpFormatter
from collections.abc import Callable
from pathlib import Path
from typing import NoReturn

from .faults import NO_ANSWER, Fault


class Parser(ArgumentParser):
    """The words of a command, with a page of help that ends with an example."""

    def __init__(self, name: str, what: str, example: str) -> None:
        super().__init__(prog=name, description=what, epilog=f"Example:\n  {example}", formatter_class=RawDescriptionHelpFormatter)

    def add_invar(self) -> None:
        """The option that names the program."""
        self.add_argument(
            "--invar", type=Path, metavar="PROGRAM", help="the program invar (else that of INVAR, the clone's, or the one on the PATH)"
        )

    def error(self, message: str) -> NoReturn:
        sys.exit(told(f"{self.prog}: {message}; {self.prog} --help says how it is called"))


def told(why: str, status: int = NO_ANSWER) -> int:
    """Tells in a line why there is no answer."""
    print(" ".join(why.split("\n")), file=sys.stderr)
    return status


def command(main: Callable[[], int]) -> Callable[[], int]:
    """A command that tells its faults, and those of files, in a line."""

    @functools.wraps(main)
    def whole() -> int:
        try:
            status = main()
            sys.stdout.flush()
            return status
        except BrokenPipeError:
            # nobody reads on: nothing is flushed at the end
            os.dup2(os.open(os.devnull, os.O_WRONLY), sys.stdout.fileno())
        except Fault as fault:
            return told(str(fault), fault.status)
        except UnicodeError as fault:
            return told(f"a text isn't of UTF-8, or can't be printed here: {fault}")
        except OSError as fault:
            return told(f"{fault.filename}: {fault.strerror}" if fault.filename else str(fault))
        except ValueError as fault:
            return told(str(fault))
        except KeyboardInterrupt:
            return told("interrupted")
        return NO_ANSWER

    return whole
