"""The verdict on each mapped frame of a log: python3 verify_log.py MAP LOG, by default those of examples/."""

import sys
from pathlib import Path
from shutil import copy
from tempfile import TemporaryDirectory

from rathonsi.can import verify_log

HERE = Path(__file__).resolve().parent.parent
map_file, log_file = sys.argv[1:] or [str(HERE / "bus_log_map.txt"), str(HERE / "bus_log.txt")]
with TemporaryDirectory() as folder:
    if Path(log_file).suffix == ".txt":  # python-can knows candump's format by the suffix .log
        log_file = copy(log_file, Path(folder, "bus.log"))
    verdicts = list(verify_log(log_file, map_file))
for verdict in verdicts:
    if verdict.refused is not None:
        print(f"frame {verdict.number}, identifier {verdict.line.arbitration_id:x}: {verdict.refused}")
print(f"{sum(it.refused is None for it in verdicts)} of {len(verdicts)} mapped frames are accepted")
