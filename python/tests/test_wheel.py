"""The wheel: the same bytes each time, a record that is right, and a package that works in an empty environment."""

import base64
import csv
import hashlib
import importlib.util
import os
import re
import subprocess
import sys
import zipfile
from pathlib import Path
from typing import Any

import pytest

TOP = Path(__file__).resolve().parents[1]
BLOCK = re.compile(r"^```(\w+)\n(.*?)^```$", re.MULTILINE | re.DOTALL)


def builder() -> Any:
    spec = importlib.util.spec_from_file_location("wheel_builder", TOP / "wheel_builder.py")
    assert spec is not None and spec.loader is not None
    module = importlib.util.module_from_spec(spec)
    spec.loader.exec_module(module)
    return module


@pytest.fixture(scope="module")
def wheel(tmp_path_factory: pytest.TempPathFactory) -> Path:
    folder = tmp_path_factory.mktemp("wheel")
    return folder / str(builder().build_wheel(str(folder)))


def test_two_runs_give_the_same_bytes(wheel: Path, tmp_path: Path) -> None:
    run = [sys.executable, str(TOP / "wheel_builder.py"), str(tmp_path)]
    printed = subprocess.run(run, check=True, capture_output=True, text=True).stdout
    assert Path(printed.strip()) == tmp_path / wheel.name
    assert (tmp_path / wheel.name).read_bytes() == wheel.read_bytes()


def test_the_record_names_each_file_with_its_sum(wheel: Path) -> None:
    with zipfile.ZipFile(wheel) as archive:
        assert archive.testzip() is None
        [record] = [name for name in archive.namelist() if name.endswith("/RECORD")]
        rows = list(csv.reader(archive.read(record).decode("ascii").splitlines()))
        assert sorted(row[0] for row in rows) == sorted(archive.namelist())
        for name, told, size in rows:
            if name != record:
                digest = base64.urlsafe_b64encode(hashlib.sha256(archive.read(name)).digest()).rstrip(b"=")
                assert told == "sha256=" + digest.decode("ascii") and int(size) == len(archive.read(name))
        names = {name for name in archive.namelist() if name.startswith("rathonsi/")}
        modes = {it.filename: it.external_attr >> 16 for it in archive.infolist()}
        [points] = [name for name in archive.namelist() if name.endswith("/entry_points.txt")]
        assert b"[pytest11]\nrathonsi = rathonsi.pytest_plugin\n" in archive.read(points)
    committed = {f"rathonsi/{path.name}" for path in (TOP / "src" / "rathonsi").iterdir() if path.name != "__pycache__"}
    carried = {f"rathonsi/programs/{name}" for name in builder().programs()}
    assert names == committed | carried | {"rathonsi/build", "rathonsi/librathonsi.so"}
    assert all((mode == 0o100755) == (name in carried) for name, mode in modes.items())


def test_tags_by_what_the_object_needs() -> None:
    tag = builder().platform_tag
    head = "lib.so:     file format elf64-x86-64\n  NEEDED               libc.so.6\n"
    assert tag(head + "    0x06969194 0x00 02 GLIBC_2.14\n    0x09691a75 0x00 03 GLIBC_2.2.5\n") == "manylinux_2_14_x86_64"
    assert tag(head.splitlines()[0] + "\n") == "manylinux_2_5_x86_64"
    assert tag(head + "  NEEDED               libasan.so.8\n") == "linux_x86_64"
    assert tag(head + head + "    0x09691a75 0x00 03 GLIBC_2.34\n    0x09691a75 0x00 03 GLIBC_2.2.5\n") == "manylinux_2_34_x86_64"
    for other in ("", head):
        with pytest.raises(SystemExit):
            tag(other + "lib.so:     file format elf64-littleaarch64\n")


@pytest.fixture(scope="module")
def environment(wheel: Path, tmp_path_factory: pytest.TempPathFactory) -> Path:
    """An empty environment in which the wheel is installed."""
    pytest.importorskip("ensurepip")
    folder = tmp_path_factory.mktemp("empty")
    made = subprocess.run([sys.executable, "-m", "venv", folder], capture_output=True, text=True)
    if made.returncode != 0:
        pytest.skip("there is no venv with pip")
    subprocess.run([folder / "bin" / "pip", "install", "--no-index", "--quiet", wheel], check=True)
    return folder


def run_in(environment: Path, *words: str) -> str:
    clean = {name: value for name, value in os.environ.items() if not name.startswith(("PYTHON", "RATHONSI"))}
    return subprocess.run([environment / "bin" / "python", *words], check=True, capture_output=True, text=True, cwd=environment, env=clean).stdout


def test_the_self_test_of_the_installed_package(environment: Path, wheel: Path) -> None:
    lines = run_in(environment, "-m", "rathonsi").splitlines()
    assert lines[0] == f"rathonsi {wheel.name.split('-')[1]}"
    assert lines[1].startswith(f"library {environment}") and lines[1].endswith("/rathonsi/librathonsi.so")
    assert not lines[2].endswith("package") and lines[3] == "self-test: 19 vectors, 0 failed"


def test_the_programs_of_the_installed_package(environment: Path) -> None:
    if "watch" not in builder().programs():
        pytest.skip("there is no program watch: bin/proved --build watch makes it")
    examples = TOP.parent / "examples"
    files = [str(examples / name) for name in ("bus_log_map.txt", "bus_log.txt")]
    clean = {name: value for name, value in os.environ.items() if not name.startswith(("PYTHON", "RATHONSI"))}
    folder = environment / "bin"
    starts = [[folder / "rathonsi", "watch"], [folder / "python", "-m", "rathonsi", "watch"], [builder().CRATES / "watch" / "out" / "watch"]]
    runs = []
    for start in starts:
        run = subprocess.run([*start, *files], capture_output=True, text=True, cwd=environment, env=clean)
        runs.append((run.returncode, run.stdout, run.stderr))
    assert runs[0] == runs[1] == runs[2] and runs[0][0] == 1 and "line 2 123" in runs[0][1]
    for words, status in ((["watch"], 2), (["none"], 2), (["../watch"], 2), (["--help"], 0)):
        run = subprocess.run([environment / "bin" / "rathonsi", *words], capture_output=True, text=True, cwd=environment, env=clean)
        assert run.returncode == status and "usage: " in run.stdout + run.stderr
    assert run.stdout.splitlines()[1:] == [f"programs: {' '.join(builder().programs())}"]


def test_the_five_lines_of_the_readme(environment: Path) -> None:
    (kind, lines), (shown, output), *_ = BLOCK.findall((TOP / "README.md").read_text(encoding="utf-8"))
    assert (kind, shown) == ("python", "text") and len(lines.splitlines()) == 5
    assert run_in(environment, "-c", lines) == output


def test_the_part_for_python_can_says_what_it_needs(environment: Path) -> None:
    with pytest.raises(subprocess.CalledProcessError) as caught:
        run_in(environment, "-c", "import rathonsi.can")
    assert "No module named 'can'" in caught.value.stderr


def test_a_library_that_is_not_there_or_another(tmp_path: Path) -> None:
    for library in (tmp_path / "none.so", "/lib/x86_64-linux-gnu/libc.so.6"):
        env = {**os.environ, "RATHONSI_LIBRARY": str(library), "PYTHONPATH": str(TOP / "src")}
        run = subprocess.run([sys.executable, "-c", "import rathonsi"], capture_output=True, text=True, env=env)
        assert run.returncode == 1 and "ImportError" in run.stderr
