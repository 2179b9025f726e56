"""python3 -m hraunlik: the command."""

import sys

from .command import main

if __name__ == "__main__":
    sys.exit(main())
