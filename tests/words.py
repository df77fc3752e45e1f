"""The words on a command's line, looked at before anything is done."""
import os
import pathlib
import sys


def leave(status):
    """Ends at once: what Python would still write, it could not write."""
    os._exit(status)


def only(usage, *known):
    """The word that stands there, or None: at most one, and of the known ones. --help prints the usage, anything else ends with 2."""
    words = sys.argv[1:]
    if words in (["--help"], ["-h"]):
        try:
            print(usage.strip(), flush=True)
        except (OSError, AttributeError):
            leave(2)
        leave(0 if sys.stdout else 2)
    if not words:
        return None
    if len(words) == 1 and words[0] in known:
        return words[0]
    try:
        print(f"{pathlib.Path(sys.argv[0]).name}: not understood: {' '.join(words)}", usage.strip(), sep="\n", file=sys.stderr, flush=True)
    except OSError:
        pass
    leave(2)
