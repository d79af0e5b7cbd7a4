"""Prints the report of a sheet: example.py SHEET.

For a refused sheet it prints the refusal on standard error, and the text of the offending line; the exit status is
then 1. It is 2 where there is no answer.
"""

import sys
from pathlib import Path

import wiltoresh


def main() -> int:
    if len(sys.argv) != 2:
        print("example.py: name a sheet", file=sys.stderr)
        return 2
    try:
        sheet = Path(sys.argv[1]).read_bytes()
    except OSError as fault:
        print(f"example.py: {fault}", file=sys.stderr)
        return 2
    try:
        sys.stdout.buffer.write(wiltoresh.report(sheet))
    except wiltoresh.Refusal as refusal:
        print(refusal, file=sys.stderr)
        print(refusal.text.decode("ascii", "replace"), file=sys.stderr)
        return 1
    return 0


if __name__ == "__main__":
    sys.exit(main())
