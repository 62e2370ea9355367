#!/usr/bin/env bash
# Gradescope runs this once, when it builds the image. The handed-out folder is in `y86/` beside it.
set -e
apt-get update
apt-get install -y python3
# A rubric needs Python 3.11, and the system's own may be older.
python3 -c 'import tomllib' || apt-get install -y python3.11
chmod +x /autograder/source/y86/y86*
