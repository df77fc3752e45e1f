"""The stored output of a program in crates/: compared with what a reference says, or written anew."""
import pathlib
import sys

import words

ROOT = pathlib.Path(__file__).resolve().parent.parent


def asked(usage):
    """Whether --write stands on the command's line."""
    return words.only(usage, "--write") == "--write"


def settle(write, crate, what, files):
    """`files` are names below crates/`crate` with the text that each should have. They are written if that is asked; else a
    difference ends the program with 1."""
    folder = ROOT / "crates" / crate
    lines = files["stdout"].count("\n")
    if write:
        for name, text in files.items():
            (folder / name).write_text(text)
        print(f"{what}: {lines} lines written")
        return
    different = [name for name, text in files.items() if (folder / name).read_text() != text]
    print(f"{what}: {lines} lines, {'DIFFERENT: ' + ', '.join(different) if different else 'equal'}")
    if different:
        sys.exit(1)
