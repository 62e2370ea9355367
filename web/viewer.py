"""Prints the page of one run or one refusal. Its title and its data come as JSON on standard input."""
import json
import os
import sys

from build import HERE, viewer

if __name__ == "__main__":
    asked = json.load(sys.stdin)
    sys.stdout.buffer.write(viewer(os.path.dirname(HERE), asked["title"], asked["data"]).encode("utf-8", "replace"))
