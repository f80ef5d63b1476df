"""Lines of a map from a database of CAN frames, by a stub of cantools: cantools itself isn't tried."""

import sys
from pathlib import Path
from types import ModuleType, SimpleNamespace
from typing import Any

import pytest

from memories import KEY
from rathonsi import map as maps
from rathonsi._maps import read_map

FRAMES = [
    SimpleNamespace(frame_id=0x123, name="Pedal Position", length=8, is_extended_frame=False),
    SimpleNamespace(frame_id=0x18DAF110, name="Brake", length=64, is_extended_frame=True),
    SimpleNamespace(frame_id=0x200, name="Short", length=4, is_extended_frame=False),
]


class StubError(Exception):
    """What the stub raises."""


@pytest.fixture
def cantools(monkeypatch: pytest.MonkeyPatch) -> None:
    stub = ModuleType("cantools")

    def load_file(path: str) -> SimpleNamespace:
        if not path.endswith(".dbc"):
            raise StubError("no database")
        return SimpleNamespace(messages=FRAMES)

    setattr(stub, "database", SimpleNamespace(load_file=load_file, Error=StubError))
    monkeypatch.setitem(sys.modules, "cantools", stub)


def test_lines_of_a_map(cantools: None, tmp_path: Path, capsys: pytest.CaptureFixture[str]) -> None:
    words = ["bus.dbc", "--id", "123=120e", "--id", "18DAF110=0a2f", "--key", KEY.hex()]
    assert maps.main(words) == 0
    (tmp_path / "map").write_text(capsys.readouterr().out)
    lines = read_map(tmp_path / "map")
    assert [(it.title, it.data_id, it.payload_length, it.is_extended_id) for it in lines] == [
        ("Pedal_Position", 0x120E, 4, False),
        ("Brake", 0x0A2F, 60, True),
    ]


def test_what_gives_no_map(cantools: None, capsys: pytest.CaptureFixture[str]) -> None:
    rows = {"200=1": "Short has 4 bytes", "124=1": "no frame of the database"}
    for word, why in rows.items():
        assert maps.main(["bus.dbc", "--id", word]) == 1 and why in capsys.readouterr().err
    assert maps.main(["bus.txt", "--id", "123=1"]) == 1 and "no database" in capsys.readouterr().err
    for words in (["bus.dbc"], ["bus.dbc", "--id", "123"], ["bus.dbc", "--id", "123=12345"]):
        with pytest.raises(SystemExit):
            maps.main(words)


def test_without_cantools(monkeypatch: pytest.MonkeyPatch, capsys: pytest.CaptureFixture[str]) -> None:
    modules: dict[str, Any] = sys.modules
    monkeypatch.setitem(modules, "cantools", None)
    assert maps.main(["bus.dbc", "--id", "123=1"]) == 1 and "pip install cantools" in capsys.readouterr().err
