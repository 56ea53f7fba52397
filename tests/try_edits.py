#!/usr/bin/env python3
"""Tries the edits of tests/edits: of each crate there, the prover must refuse every one.

The gate tries the edits in crates/NAME/must-fail. Those of the largest crates take it longer than the rest of the
gate, so they stand here. This puts them in their place, has rt must-fail try them, and takes them away again.
Name crates to try theirs alone. The status is 0 where all were refused.
"""
import pathlib
import shutil
import subprocess
import sys

TOP = pathlib.Path(__file__).resolve().parent.parent
EDITS = TOP / "tests" / "edits"


def are_refused(crate):
    """Whether every edit of the crate is refused."""
    place = TOP / "crates" / crate / "must-fail"
    if place.exists():
        print(f"{crate} has edits in its own must-fail already")
        return False
    shutil.copytree(EDITS / crate, place)
    try:
        return subprocess.run(["rt", "must-fail", crate], cwd=TOP).returncode == 0
    finally:
        shutil.rmtree(place)


def main():
    """Tries the edits of the crates that are named, or of all."""
    crates = sys.argv[1:] or sorted(it.name for it in EDITS.iterdir())
    return 0 if all([are_refused(crate) for crate in crates]) else 1


if __name__ == "__main__":
    sys.exit(main())
