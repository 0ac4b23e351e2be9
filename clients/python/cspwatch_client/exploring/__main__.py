"""`python3 -m cspwatch_client.exploring` is the command `cspwatch-explore`."""
import sys

from .command import main

if __name__ == "__main__":
    sys.exit(main())
