"""What this package was built of: bin/package writes it into the file `build` beside this module."""

from pathlib import Path
from typing import Final


def _read() -> dict[str, str]:
    file = Path(__file__).with_name("build")
    if not file.exists():
        return {}
    return dict(line.split(" ", 1) for line in file.read_text(encoding="ascii").splitlines())


_told = _read()
VERSION: Final = _told.get("version", "0+checkout")
KIT: Final = _told.get("kit", "not told: this is a checkout, not a built package")
