"""`python3 tools` is `./y86-lab`: only this folder is added to where Python looks for modules."""
import sys

from y86lab.cli import main

if __name__ == "__main__":
    sys.exit(main())
