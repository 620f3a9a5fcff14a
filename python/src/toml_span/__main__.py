"""Checks TOML files: python3 -m toml_span FILE..

Prints the report of each error. The exit status is 0 if all files are valid, 1 if one is not, and 2 if one can't be
read or none is given.
"""

import sys
from typing import List

from . import TOMLDecodeError, parse


def main(names: List[str]) -> int:
    if names in (["--help"], ["-h"]):
        print(str(__doc__).strip())
        return 0
    status = 0 if names else 2
    if not names:
        print("usage: python3 -m toml_span FILE..", file=sys.stderr)
    for name in names:
        try:
            with open(name, "rb") as file:
                parse(file.read(), name)
        except TOMLDecodeError as error:
            print(error.report or f"error: {error}\n --> {name}\n", file=sys.stderr)
            status = max(status, 1)
        except OSError as error:
            print(f"error: cannot read `{name}`: {error.strerror}", file=sys.stderr)
            status = 2
    return status


if __name__ == "__main__":
    sys.exit(main(sys.argv[1:]))
