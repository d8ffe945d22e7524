"""The command `rt` of the Rattle kit."""
import os
import shutil
import sys


def rt():
    """The path of the command that RT names, or of the one on the path."""
    name = os.environ.get("RT") or "rt"
    found = shutil.which(name)
    if not found:
        sys.exit(f"{name} not found: put the Rattle kit's rt on the path, or use RT=/path/to/rt")
    return os.path.abspath(found)
