"""`python3 -m y86lab` is `./y86-lab`."""
import sys

from y86lab.cli import main

if __name__ == "__main__":
    sys.exit(main())
