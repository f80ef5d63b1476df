"""Structs, statuses and flags are those of the headers."""

import ctypes
import re
import shutil
import subprocess
from pathlib import Path

import pytest

import rathonsi
from rathonsi import _answers, _library
from rathonsi._errors import REFUSALS

INCLUDE = Path(__file__).resolve().parents[2] / "include"
STRUCTS = {
    "RathonsiVerdict": _library.VerdictStruct,
    "RathonsiUpdate": _library.UpdateStruct,
    "RathonsiRequest": _library.RequestStruct,
    "RathonsiReply": _library.ReplyStruct,
    "RathonsiWrite": _library.WriteStruct,
    "RathonsiPlan": _library.PlanStruct,
    "RathonsiRoute": _library.RouteStruct,
    "RathonsiQuestion": _library.QuestionStruct,
}


@pytest.mark.skipif(shutil.which("cc") is None, reason="there is no cc")
def test_sizes_and_offsets(tmp_path: Path) -> None:
    lines, wanted = [], []
    for name, struct in STRUCTS.items():
        lines.append(f'printf("%zu\\n", sizeof({name}));')
        wanted.append(ctypes.sizeof(struct))
        for field, *_ in struct._fields_:
            lines.append(f'printf("%zu %zu\\n", offsetof({name}, {field}), sizeof((({name} *)0)->{field}));')
            place = getattr(struct, field)
            wanted += [place.offset, place.size]
    source = tmp_path / "sizes.c"
    source.write_text('#include <stdio.h>\n#include "rathonsi_store.h"\nint main(void) {' + "\n".join(lines) + "return 0; }")
    subprocess.run(["cc", f"-I{INCLUDE}", "-o", tmp_path / "sizes", source], check=True)
    printed = subprocess.run([tmp_path / "sizes"], check=True, capture_output=True, text=True).stdout
    assert [int(word) for word in printed.split()] == wanted


def defined() -> dict[str, int]:
    """The numbers that the headers define by name."""
    text = "".join((INCLUDE / name).read_text(encoding="ascii") for name in ("rathonsi.h", "rathonsi_store.h"))
    return {name: int(number) for name, number in re.findall(r"^#define RATHONSI_([A-Z_]+) ([0-9]+)u?$", text, re.MULTILINE)}


def test_statuses_flags_and_constants() -> None:
    numbers = defined()
    names = {refusal.__name__: status for status, refusal in REFUSALS.items()}
    text = (INCLUDE / "rathonsi_store.h").read_text(encoding="ascii")
    every = {name.title().replace("_", ""): int(number) for name, number in re.findall(r"X\(([A-Z_]+), ([0-9]+)\)", text)}
    assert names == {name: status for name, status in every.items() if status}
    assert names.items() <= {name.title().replace("_", ""): number for name, number in numbers.items()}.items()
    assert all(refusal.__name__ in rathonsi.__all__ for refusal in REFUSALS.values())
    for flag in rathonsi.Flags:
        assert flag.name is not None and numbers[flag.name] == flag
    assert (numbers["SENDS"], numbers["RECEIVES"]) == (rathonsi.SENDS, rathonsi.RECEIVES)
    assert (numbers["TO_ENCRYPT"], numbers["TO_AUTHENTICATE"]) == (rathonsi.Purpose.ENCRYPT, rathonsi.Purpose.AUTHENTICATE)
    assert (numbers["PAYLOAD_MOST"], numbers["TRAILER"], numbers["PDU_MOST"], numbers["SLOT_CELLS"]) == (60, 4, 64, 14)
    assert (numbers["NONCE"], numbers["ANSWER"]) == (_answers.NONCE, _answers.ANSWER)
