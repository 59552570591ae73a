"""The command `invar-c`."""
from __future__ import annotations

import sys

from ..commands import command
from ..faults import Fault


@command
def main() -> int:
    try:
        from . import annotate
    except ModuleNotFoundError as fault:
        raise Fault(f"{fault.name} isn't installed (apt-get install python3-pycparser, or pip install pycparser)") from fault
    return annotate.main()


if __name__ == "__main__":
    sys.exit(main())
