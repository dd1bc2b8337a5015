"""Prints the folder below a prefix in which this Python looks for modules."""

import site
import sys

prefix = sys.argv[1].rstrip("/") + "/"
for folder in [*sys.path, site.getusersitepackages()]:
    if folder.startswith(prefix) and folder.endswith("-packages"):
        print(folder)
        break
