"""The vectors of the standards through the package: its own self-test, and NIST's known answers as Debian has them."""

import os
import subprocess
import sys
from collections.abc import Iterator
from pathlib import Path

import pytest

import rathonsi
from rathonsi import __main__ as program
from rathonsi._vectors import vectors

NIST = Path("/usr/lib/python3/dist-packages/cryptography_vectors")


@pytest.mark.parametrize("name, said, wanted", [pytest.param(*it, id=it[0]) for it in vectors()])
def test_each_vector_of_the_self_test(name: str, said: object, wanted: object) -> None:
    assert said == wanted


def test_the_program_prints_four_lines_and_ends_with_0() -> None:
    env = {**os.environ, "PYTHONPATH": os.pathsep.join(sys.path)}
    run = subprocess.run([sys.executable, "-m", "rathonsi"], capture_output=True, text=True, env=env)
    lines = run.stdout.splitlines()
    assert run.returncode == 0 and run.stderr == ""
    assert [line.split(" ")[0] for line in lines] == ["rathonsi", "library", "kit", "self-test:"]
    assert lines[0] == f"rathonsi {rathonsi.__version__}"
    assert lines[3] == "self-test: 19 vectors, 0 failed"


def test_the_program_ends_with_1_if_a_vector_fails(monkeypatch: pytest.MonkeyPatch, capsys: pytest.CaptureFixture[str]) -> None:
    monkeypatch.setattr(program, "vectors", lambda: iter([("right", 1, 1), ("wrong", 1, 2)]))
    monkeypatch.setattr(sys, "argv", ["rathonsi"])
    assert program.main() == 1
    assert capsys.readouterr().out.splitlines()[3:] == ["wrong: 1, and not 2", "self-test: 2 vectors, 1 failed"]


def records(path: Path) -> Iterator[dict[str, str]]:
    """The records of a file of known answers: each a dictionary of its lines NAME = HEX."""
    record: dict[str, str] = {}
    for line in [*path.read_text(encoding="ascii").splitlines(), ""]:
        name, is_line, value = line.partition("=")
        if is_line and not line.startswith("#"):
            record[name.strip()] = value.strip()
        elif record:
            yield record
            record = {}


def known(kind: str) -> list[dict[str, str]]:
    folder = NIST / "ciphers" / "AES" / kind
    return [record for name in ("GFSbox", "KeySbox", "VarKey", "VarTxt", "MMT") for record in records(folder / f"{kind}{name}128.rsp")]


@pytest.mark.skipif(not NIST.exists(), reason=f"there is no {NIST}")
def test_known_answers_of_nist() -> None:
    count = 0
    for record in known("ECB"):
        key, plain, cipher = (bytes.fromhex(record[name]) for name in ("KEY", "PLAINTEXT", "CIPHERTEXT"))
        assert rathonsi.aes128_encrypt(key, plain) == cipher and rathonsi.aes128_decrypt(key, cipher) == plain
        count += 1
    for record in known("CBC"):
        key, iv, plain, cipher = (bytes.fromhex(record[name]) for name in ("KEY", "IV", "PLAINTEXT", "CIPHERTEXT"))
        assert rathonsi.aes128_cbc_encrypt(key, iv, plain) == cipher
        assert rathonsi.aes128_cbc_decrypt(key, iv, cipher) == plain
        count += 1
    for record in records(NIST / "CMAC" / "nist-800-38b-aes128.txt"):
        assert rathonsi.cmac(bytes.fromhex(record["KEY"]), bytes.fromhex(record["MESSAGE"])).hex() == record["OUTPUT"]
        count += 1
    assert count == 1180
