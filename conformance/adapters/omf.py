#!/usr/bin/env python3
"""omf itself: its answers have the form of the cases. A case of another program is none of its own."""
import subprocess
import sys

sys.exit(subprocess.run(["omf", *sys.argv[1:]]).returncode)
