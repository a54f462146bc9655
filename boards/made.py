"""Files that a script makes, and that stand in the repository: written, or with --check only compared."""
import os
import sys


def keep(folder, files, stale=()):
    """Writes files, given by their names in the folder and their bytes; with --check only stops where another one stands there. Names
    that are stale already stop it too."""
    stale = list(stale)
    for name, data in files:
        path = os.path.join(folder, name)
        if "--check" not in sys.argv:
            with open(path, "wb") as f:
                f.write(data)
        elif not os.path.exists(path) or open(path, "rb").read() != data:
            stale.append(name)
    if stale:
        sys.exit(f"{sys.argv[0]} makes other files than stand there: {', '.join(stale)}")
