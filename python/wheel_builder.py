#!/usr/bin/env python3
"""Builds the wheel of the package, with the shared object that bin/build_c made and the programs that are built, by the
standard library alone.

wheel_builder.py [FOLDER]   writes the wheel into FOLDER (dist/ without it), and prints its path

It is also the build backend of pyproject.toml (PEP 517), so `pip install ./python` works without a network. The version
and the time of all files are those of the first heading of CHANGELOG.md, and nothing is compressed: two runs over one
build give the same bytes. The tag names the oldest C library that has all that the shared object and the programs need.
A program that isn't built isn't in the wheel: bin/package builds all before.
"""

import base64
import hashlib
import io
import os
import re
import shutil
import subprocess
import sys
import zipfile
from datetime import datetime
from pathlib import Path
from typing import Any

HERE = Path(__file__).resolve().parent
SOURCE = HERE / "src"
CRATES = HERE.parent / "crates"
OBJECT = CRATES / "rathonsi_c" / "out" / "librathonsi.so"
PAGES = HERE.parent / "docs" / "man"


# the command `rathonsi`, and the fixture for each pytest
ENTRY_POINTS = b"""[console_scripts]
rathonsi = rathonsi.__main__:main

[pytest11]
rathonsi = rathonsi.pytest_plugin
"""


def release() -> tuple[str, datetime]:
    """Version and day of the first heading of CHANGELOG.md."""
    changes = (HERE.parent / "CHANGELOG.md").read_text(encoding="utf-8")
    heading = re.search(r"^## ([0-9.]+) \(([0-9-]+)\)$", changes, re.MULTILINE)
    if heading is None:
        raise SystemExit("CHANGELOG.md has no version")
    return heading[1], datetime.fromisoformat(heading[2])


def programs() -> dict[str, Path]:
    """Each program with a page in docs/man that is built."""
    built = {page.stem: CRATES / page.stem / "out" / page.stem for page in sorted(PAGES.glob("*.1"))}
    return {name: path for name, path in built.items() if path.is_file()}


def kit() -> str:
    """The kit whose compiler made the shared object, as its `rt` says."""
    if shutil.which("rt") is None:
        return "not told: there was no rt"
    return subprocess.run(["rt", "version"], check=True, capture_output=True, text=True).stdout.strip()


def platform_tag(about: str) -> str:
    """The platform of files for x86-64, by what `objdump -p` says of the libraries that they need."""
    needed = set(re.findall(r"^ +NEEDED +(\S+)$", about, re.MULTILINE))
    versions = [(int(major), int(minor)) for major, minor in re.findall(r" GLIBC_([0-9]+)\.([0-9]+)", about)]
    formats = set(re.findall(r"file format (\S+)", about))
    if formats != {"elf64-x86-64"}:
        raise SystemExit("the shared object or a program isn't one for x86-64")
    if needed - {"libc.so.6"}:
        return "linux_x86_64"
    # no pip knows a manylinux that is older
    major, minor = max([*versions, (2, 5)])
    return f"manylinux_{major}_{minor}_x86_64"


def tag() -> str:
    if shutil.which("objdump") is None:
        return "py3-none-linux_x86_64"
    told = subprocess.run(["objdump", "-p", OBJECT, *programs().values()], check=True, capture_output=True, text=True).stdout
    return f"py3-none-{platform_tag(told)}"


def metadata(version: str) -> str:
    return "\n".join([
        "Metadata-Version: 2.1",
        "Name: rathonsi",
        f"Version: {version}",
        "Summary: Secured I-PDUs (AUTOSAR SecOC), AES-128, CMAC and SHE key updates, proved",
        "Requires-Python: >=3.11",
        "Provides-Extra: can",
        "Requires-Dist: python-can >=4.1 ; extra == 'can'",
        "Classifier: Operating System :: POSIX :: Linux",
        "Classifier: Programming Language :: Python :: 3",
        "Classifier: Typing :: Typed",
        "Description-Content-Type: text/markdown",
        "",
        (HERE / "README.md").read_text(encoding="utf-8"),
    ])


def contents(version: str, name: str) -> dict[str, bytes]:
    """The files of the wheel, except its record."""
    files = {f"rathonsi/{path.name}": path.read_bytes() for path in SOURCE.glob("rathonsi/*.py")}
    files["rathonsi/py.typed"] = b""
    files["rathonsi/librathonsi.so"] = OBJECT.read_bytes()
    files["rathonsi/build"] = f"version {version}\nkit {kit()}\n".encode("ascii")
    files |= {f"rathonsi/programs/{program}": path.read_bytes() for program, path in programs().items()}
    files[f"{name}.dist-info/entry_points.txt"] = ENTRY_POINTS
    files[f"{name}.dist-info/METADATA"] = metadata(version).encode("utf-8")
    wheel = f"Wheel-Version: 1.0\nGenerator: rathonsi {version}\nRoot-Is-Purelib: false\nTag: {tag()}\n"
    files[f"{name}.dist-info/WHEEL"] = wheel.encode("ascii")
    return dict(sorted(files.items()))


def record(files: dict[str, bytes], name: str) -> bytes:
    lines = []
    for path, content in files.items():
        digest = base64.urlsafe_b64encode(hashlib.sha256(content).digest()).rstrip(b"=").decode("ascii")
        lines.append(f"{path},sha256={digest},{len(content)}\n")
    return "".join([*lines, f"{name}.dist-info/RECORD,,\n"]).encode("ascii")


def build_wheel(wheel_directory: str, config_settings: Any = None, metadata_directory: str | None = None) -> str:
    """Writes the wheel into this folder, and gives its name."""
    if not OBJECT.exists():
        raise SystemExit("there is no shared object: bin/build_c makes it")
    version, day = release()
    name = f"rathonsi-{version}"
    files = contents(version, name)
    files[f"{name}.dist-info/RECORD"] = record(files, name)
    whole = io.BytesIO()
    with zipfile.ZipFile(whole, "w", zipfile.ZIP_STORED) as archive:
        for path, content in files.items():
            about = zipfile.ZipInfo(path, day.timetuple()[:6])
            mode = 0o100755 if path.startswith("rathonsi/programs/") else 0o100644
            about.create_system, about.external_attr = 3, mode << 16
            archive.writestr(about, content)
    wheel = Path(wheel_directory) / f"{name}-{tag()}.whl"
    os.makedirs(wheel_directory, exist_ok=True)
    wheel.write_bytes(whole.getvalue())
    return wheel.name


def build_sdist(sdist_directory: str, config_settings: Any = None) -> str:
    """There is none: the shared object is made of the whole repository."""
    raise SystemExit("rathonsi is built as a wheel alone")


if __name__ == "__main__":
    folder = sys.argv[1] if len(sys.argv) > 1 else str(HERE.parent / "dist")
    print(Path(folder) / build_wheel(folder))
