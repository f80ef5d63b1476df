"""The command `rathonsi`, and `python -m rathonsi`.

Without arguments it prints the version, the library and the kit, and tries the standards' vectors: it ends with 0 if the
library says of each vector what the standard says, else with 1. `rathonsi PROGRAM ARGUMENT..` runs a program of the
package, such as `rathonsi watch MAP LOG`, which ends as its page says.
"""

import os
import sys
from pathlib import Path

from . import _build, _library
from ._vectors import vectors

HERE = Path(__file__).resolve().parent


def programs() -> dict[str, Path]:
    """The programs of the package, or else those that are built in the checkout."""
    places = [*HERE.glob("programs/*")] or [
        path for path in HERE.parents[2].glob("crates/*/out/*") if path.name == path.parents[1].name
    ]
    return {path.name: path for path in sorted(places) if path.is_file() and os.access(path, os.X_OK)}


def self_test() -> int:
    """Tries the vectors, and gives the exit status."""
    print(f"rathonsi {_build.VERSION}")
    print(f"library {_library.path}")
    print(f"kit {_build.KIT}")
    count = failed = 0
    for name, said, wanted in vectors():
        count += 1
        if said != wanted:
            failed += 1
            print(f"{name}: {said!r}, and not {wanted!r}")
    print(f"self-test: {count} vectors, {failed} failed")
    return 1 if failed else 0


def main() -> int:
    """The exit status; none if a program takes this process over."""
    words = sys.argv[1:]
    if not words:
        return self_test()
    found = programs()
    if words[0] in found:
        sys.stdout.flush()
        os.execv(found[words[0]], words)
    known = f"programs: {' '.join(found)}" if found else "this package has no programs"
    print(f"usage: rathonsi [PROGRAM ARGUMENT..]\n{known}", file=sys.stdout if words == ["--help"] else sys.stderr)
    return 0 if words == ["--help"] else 2


if __name__ == "__main__":
    sys.exit(main())
