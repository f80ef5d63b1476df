#!/usr/bin/env python3
"""Runs the rows of checks/rows/*.toml over the built programs (crates/NAME/out/NAME), each in a folder of its own.

    python3 -m pytest checks/test_rows.py -n auto -k "gateway and stop"
    python3 checks/test_rows.py [--try] gateway stop

The second form needs no pytest: it runs the rows whose ids have each of these texts, with `--try` over programs that
bin/try builds, which aren't proved. checks/rows/README.md has the form of a row. A row passes if each command's output,
standard error, status and files are exactly those that it names.
"""
import concurrent.futures
import contextlib
import difflib
import functools
import importlib.machinery
import importlib.util
import itertools
import os
import pty
import re
import shlex
import shutil
import socket
import stat
import string
import subprocess
import sys
import tempfile
import threading
import time
import tomllib
import tty
from pathlib import Path

CHECKS = Path(__file__).resolve().parent
TOP = CHECKS.parent
sys.path.insert(0, str(CHECKS / "models"))
import watch_model  # noqa: E402

# a standard output with room for N bytes is a file that may grow to this many
ROOM = 65536
SECONDS = 120
VERSION = re.search(r"^## ([0-9.]+)", (TOP / "CHANGELOG.md").read_text(), re.MULTILINE)[1]
BUILDING = threading.Lock()
# the gate of a cell that counts
LIVE = 0xA7
# so that a program that makes a file itself says that nobody else may read it
os.umask(0o022)
BASH = {
    "stdin": 'exec 0<&-; exec "$@"',
    "stdout": 'exec 1>&-; exec "$@"',
    "stderr": 'exec 2>&-; exec "$@"',
    "room": f"trap '' XFSZ; ulimit -f {ROOM // 1024}; exec \"$@\"",
}
FIELDS = set(
    "run input lines output error status room closed full pieces read_fails_after env refuses_allocations columns "
    "after bytes makes unchanged reads_folder last_word same prompt first size copies judge answers times other "
    "with for through together only".split()
)


class Names(dict):
    """Texts by name, each of which may cite others as $name."""

    def __getitem__(self, name):
        return self.filled(super().__getitem__(name))

    def __missing__(self, name):
        raise ValueError(f"there is no name ${name}")

    def filled(self, text):
        return string.Template(text).substitute(self)


def whole_of(parts, forms):
    """What the parts of a row say of it, and its commands. A text is one of the table's forms and what its words are;
    a table without `run` goes on with the command before it."""
    about, steps = {}, []
    for part in parts if isinstance(parts, list) else [parts]:
        if isinstance(part, str):
            name, *words = shlex.split(part)
            if name not in forms:
                raise ValueError(f"there is no form {name}")
            of_form = forms[name]
            named = of_form["takes"].split()
            if len(words) != len(named):
                raise ValueError(f"{part}: the words of {name} are {named}")
            more = {field: value for field, value in of_form.items() if field not in ("takes", "steps")}
            steps += [{**step, "with": dict(zip(named, words))} for step in of_form.get("steps", [more])]
            continue
        own = {name: value for name, value in part.items() if name in ("names", "files", "has", "each")}
        rest = {name: value for name, value in part.items() if name not in own}
        about.update({name: {**about[name], **it} if name in about else it for name, it in own.items()})
        if "run" in rest or "judge" in rest:
            steps.append(rest)
        elif rest and not steps:
            raise ValueError("its first part has no command (`run`)")
        elif rest:
            steps[-1].update(rest)
    return about, steps


class Row:
    """One row: its id, its steps, and the names and files that they cite."""

    def __init__(self, table, key, parts, case):
        about, self.steps = whole_of(parts, table["forms"])
        self.names = Names({"top": str(TOP), "version": VERSION, **table["names"], **about.get("names", {}), **case})
        told = string.Template(key).substitute(case)
        self.id = f"{table['program']}/{re.sub('[^A-Za-z0-9_.]+', '-', told).strip('-')}"
        self.files = {**table["files"], **about.get("files", {})}
        self.has = about.get("has", [])
        unknown = {name for step in self.steps for name in step} - FIELDS
        if unknown or not self.steps:
            raise ValueError(f"no such field: {', '.join(sorted(unknown))}" if unknown else "it has no command")

    def number(self, spec, name):
        return int(self.names.filled(str(spec[name])))

    def bytes_of(self, spec):
        """The bytes of a text, of a table that says how they are made, or of a list of these."""
        if isinstance(spec, bytes):
            return spec
        if isinstance(spec, str):
            return self.names.filled(spec).encode("latin-1")
        if isinstance(spec, list):
            return b"".join(map(self.bytes_of, spec))
        if "repeat" in spec:
            return self.bytes_of(spec["repeat"]) * self.number(spec, "times")
        if "zeros" in spec:
            return bytes(self.number(spec, "zeros"))
        if "hex" in spec:
            return bytes.fromhex(self.names.filled(spec["hex"]))
        if "counted" in spec:
            text = self.names.filled(spec["counted"])
            numbers = range(self.number(spec, "from"), self.number(spec, "to") + 1)
            return "".join(text % ((it,) * text.count("%")) for it in numbers).encode("latin-1")
        if "each" in spec:
            own, each = self.names, cases(self.names.filled(spec["each"]))
            return "".join(Names({**own, **case}).filled(spec["form"]) for case in each).encode("latin-1")
        if "numbered" in spec:
            lines = self.bytes_of(spec["numbered"]).splitlines(True)
            return b"".join(b"%d %s" % (at, it) for at, it in enumerate(lines, 1))
        if "wide" in spec:
            # a bus of nodes with so many routes each: the first sends what the others receive
            routes = [{"counted": f"${it}_route", "from": 1, "to": spec["wide"]} for it in ("sending", "receiving")]
            nodes = [[self.names["wide_node"] % at, routes[at > 1]] for at in range(1, spec.get("nodes", 8) + 1)]
            return self.bytes_of([f"version = {spec['version']}\n", *nodes])
        return self.changed(spec, self.modelled(spec) if "model" in spec else self.found(spec))

    def found(self, spec):
        """The bytes of a store, of a file of the row or of the repository, or of a text."""
        if "store" in spec:
            cells, puts = (self.bytes_of(spec.get(it, "")).decode() for it in ("cells", "puts"))
            return stored(*map(int, self.names.filled(spec["store"]).split()), cells, puts)
        if "of" in spec:
            return self.bytes_of(self.files[self.names.filled(spec["of"])])
        if "made" in spec:
            return (self.folder / self.names.filled(spec["made"])).read_bytes()
        return self.bytes_of(spec["text"]) if "text" in spec else (TOP / self.names.filled(spec["file"])).read_bytes()

    def changed(self, spec, whole):
        """These bytes with what the table changes of them."""
        if "uncommented" in spec:
            whole = b"".join(line for line in whole.splitlines(True) if not line.startswith(b"#"))
        for old, new in spec.get("replace", {}).items():
            whole = whole.replace(self.bytes_of(old), self.bytes_of(new))
        for old, new in spec.get("patterns", {}).items():
            whole = re.sub(old.encode(), new.encode(), whole, flags=re.MULTILINE)
        changes = [it.split(":") for it in self.names.filled(spec.get("changes", "")).split()]
        for place, digits in [*spec.get("changed", {}).items(), *changes]:
            start, new = int(self.names.filled(place)), bytes.fromhex(self.names.filled(digits))
            whole = whole[:start] + new + whole[start + len(new) :]
        if "length" in spec:
            length = self.number(spec, "length")
            whole = whole[:length].ljust(length, b"\0")
        first, end = (self.number(spec, it) if it in spec else None for it in ("from", "to"))
        return framed(self.names.filled(spec["frame"]), whole[first:end]) if "frame" in spec else whole[first:end]

    def modelled(self, spec):
        """What a model prints, a program of checks/models; the files that its arguments name are made before."""
        name, *words = self.names.filled(spec["model"]).split()
        if not importlib.util.find_spec("cryptography"):
            raise Missing("rows beside models (python3-cryptography)")
        self.make(words)
        given = self.bytes_of(spec.get("input", ""))
        command = [sys.executable, CHECKS / "models" / name, *words]
        return subprocess.run(command, cwd=self.folder, input=given, stdout=subprocess.PIPE, check=True).stdout

    def words(self, step):
        return shlex.split(self.names.filled(step.get("run") or step["judge"]))

    def judged(self, step):
        """The commands of a step with `judge`: `watch` prints these answers and what its model counts behind them, as
        objects, too; with `times`, both with times; and with `other`, `audit` prints them and this number."""
        words, given = self.names.filled(step["judge"]), self.bytes_of(step.get("input", ""))
        mapped, logged = (given if it == "-" else read(self.folder / it) for it in shlex.split(words))
        answers = self.bytes_of(step["answers"])
        totals, status = watch_model.totals(mapped, logged, answers)
        assert str(status) == self.names.filled(str(step.get("status", status))), f"{status} is counted"
        told = {"": answers + totals, " --json": watch_model.objects(answers + totals, mapped)}
        for option, text in told.items():
            times = (" --time", watch_model.timed(text, logged)) if "times" in step else ("", text)
            yield {"run": f"watch{option}{times[0]} {words}", "input": given, "output": times[1], "status": status}
        if "other" in step:
            other = self.names.filled(f"other {step['other']}\n").encode()
            yield {"run": f"audit {words}", "input": given, "output": answers + other}

    def make(self, names):
        """Makes those files of the row that have one of these names."""
        for name in dict.fromkeys(names):
            folder, spec = self.folder, self.files.get(name)
            if spec is None or os.path.lexists(folder / name):
                continue
            kind = spec.get("kind") if isinstance(spec, dict) else None
            (folder / name).parent.mkdir(exist_ok=True)
            if kind == "folder":
                (folder / name).mkdir()
            elif kind == "socket":
                # by a short name, since there is a limit
                place = os.open(folder, os.O_RDONLY)
                with socket.socket(socket.AF_UNIX) as it:
                    it.bind(f"/proc/self/fd/{place}/{name}")
                os.close(place)
            elif kind == "fifo":
                os.mkfifo(folder / name)
                if "fed" in spec:
                    threading.Thread(target=feed, args=(folder / name, self.bytes_of(spec["fed"])), daemon=True).start()
            else:
                write(folder / name, self.bytes_of(spec))
            if isinstance(spec, dict) and "mode" in spec:
                os.chmod(folder / name, int(spec["mode"], 8))
            if isinstance(spec, dict) and "owner" in spec and not os.getuid():
                os.chown(folder / name, spec["owner"], -1)

    def transcript(self, step):
        """Input and output of a step with `lines`: each `INPUT => ANSWER`, whose answers are numbered."""
        lines = self.bytes_of(step["lines"]).decode("latin-1")
        parts = [line.partition(" => ") for line in lines.splitlines()]
        answers = [answer for _, arrow, answer in parts if arrow]
        given = "\n".join(given for given, _, _ in parts) + ("\n" if lines.endswith("\n") else "")
        return given.encode("latin-1"), "".join(f"{at} {it}\n" for at, it in enumerate(answers, 1)).encode("latin-1")

    def wanted_of(self, step):
        """Input and output of a step."""
        if "lines" in step:
            return self.transcript(step)
        return self.bytes_of(step.get("input", "")), self.bytes_of(step.get("output", ""))

    def run_step(self, step, folder, room):
        """Runs a command; raises AssertionError if anything differs."""
        given, wanted = self.wanted_of(step)
        # a command changes no file but those that its arguments name, with SQLite's logs, and not those of `unchanged`
        there, words = set(os.listdir(folder)), self.words(step)
        stay = {name for name in there if not {name, name.removesuffix("-wal")} & {*words, *map(os.path.basename, words)}}
        stay.update(map(self.names.filled, step.get("unchanged", [])))
        before = {name: read(folder / name) for name in stay}
        run = Run(self, step, folder, room, given)
        if "refuses_allocations" in step:
            run.refuses_each(wanted)
            return
        status, output, error = run.started_together(wanted) if "together" in step else run.started()
        if "columns" in step:
            output = b"".join(b" ".join(line.split(b" ")[: step["columns"]]) + b"\n" for line in output.splitlines())
        if "first" in step:
            output = b"".join(output.splitlines(True)[: step["first"]])
        if "room" in step:
            wanted = wanted[: run.number("room")]
        ends = self.names.filled(str(step.get("status", 0)))
        found = [
            difference("standard output", wanted, output),
            difference("standard error", self.bytes_of(step.get("error", "")), error),
            *([] if ends == str(status) else [f"status {status}, wanted {ends}"]),
            *(difference(name, old, read(folder / name)) for name, old in before.items()),
            *self.wrong_files(step, folder),
            *self.wrongly_made(step, folder, there),
        ]
        assert not any(found), "\n".join([" ".join(words), *filter(None, found)])
        for name, spec in step.get("copies", {}).items():
            write(folder / self.names.filled(name), self.bytes_of(spec))

    def wrong_files(self, step, folder):
        """What differs in the files that the step names."""
        for name, it in step.get("after", {}).items():
            yield difference(name, self.bytes_of(it), read(folder / self.names.filled(name)))
        for it in step.get("same", []):
            one, other = (read(folder / name) for name in self.names.filled(it).split())
            yield difference(it, other, one)
        for it in step.get("bytes", []):
            name, start, digits = self.names.filled(it).split()
            held = read(folder / name)[int(start) :][: len(digits) // 2].hex()
            yield difference(f"{name} from {start}", digits.encode(), held.encode())
        for it in step.get("size", []):
            name, size = shlex.split(self.names.filled(it))
            yield difference(f"size of {name}", size.encode(), str((folder / name).stat().st_size).encode())

    def wrongly_made(self, step, folder, there):
        """What is wrong with the files that were made: the owner alone may read one, and it has no other name."""
        made = {name: os.lstat(folder / name) for name in set(os.listdir(folder)) - there}
        # SQLite's log stands beside a database that is made
        if {name.removesuffix("-wal") for name in made} != ({self.names.filled(step["makes"])} if "makes" in step else set()):
            yield f"files that were made: {sorted(made)}"
        for name, it in made.items():
            # SQLite's log has the mode of its database
            mode = os.lstat(folder / name.removesuffix("-wal")).st_mode if name.endswith("-wal") else 0o100600
            if (it.st_mode, it.st_nlink) != (mode, 1):
                yield f"{name}: mode {it.st_mode:o}, {it.st_nlink} links"

    def commands(self):
        """The steps of the row, each with its names: one with `for` is done for each case of this table, in turn."""
        for step in self.steps:
            for case in cases(self.names.filled(step["for"])) if "for" in step else [{}]:
                names = Names({**self.names, **case})
                # which stream is full or closed may be told by a case, and none by an empty word
                streams = {name: names.filled(step[name]) for name in ("full", "closed") if name in step}
                whole = {name: streams.get(name, it) for name, it in step.items() if streams.get(name) != ""}
                words = {name: names.filled(it) for name, it in step.get("with", {}).items()}
                yield whole, Names({**names, **words})

    def play(self):
        with tempfile.TemporaryDirectory(prefix="row-", dir=rooms()) as place:
            self.folder, room = Path(place, "work"), Path(place, "room")
            self.folder.mkdir()
            room.mkdir()
            commands = list(self.commands())
            for step, self.names in commands:
                self.make([*self.words(step), *map(self.names.filled, self.has)])
            for step, self.names in commands:
                # a row for root, or for anybody else
                if step.get("only") != ("root" if os.getuid() else "others"):
                    for command in self.judged(step) if "judge" in step else [step]:
                        self.run_step(command, self.folder, room)


class Run:
    """One command: its program, streams and environment."""

    def __init__(self, row, step, folder, room, given):
        self.row, self.step, self.folder, self.room, self.given = row, step, folder, room, given
        words = row.words(step)
        last = [row.bytes_of(step["last_word"])] if "last_word" in step else []
        program = os.fsencode(program_of(words[0]))
        self.command = [program, *(it.encode("latin-1") for it in words[1:]), *last]
        self.env = {**os.environ, **dict(row.names.filled(it).split("=", 1) for it in step.get("env", []))}
        if "env" in step:
            self.env["LD_PRELOAD"] = shim("file_record" if "FILE_NAME" in self.env else "failing_file")
        if not os.path.exists(program):
            raise FileNotFoundError(f"{words[0]} isn't built: bin/{words[0]} proves and builds it; or take --try")
        if OVER_TRIED and "refuses_allocations" in step:
            raise Missing(f"{row.id} (the proved program)")
        if "through" in step:
            through = shlex.split(row.names.filled(step["through"]))
            tried = {"cwd": folder, "stdout": subprocess.DEVNULL, "stderr": subprocess.DEVNULL}
            if not shutil.which(through[0]) or subprocess.run([*through, "true"], **tried).returncode:
                raise Missing(f"{through[0]}, for {row.id}")
            self.command = [*through, *self.command]
        for name in [step["closed"]] if "closed" in step else ["room"] if "room" in step else []:
            self.command = [b"bash", b"-c", BASH[name].encode(), b"bash", *self.command]

    def number(self, name):
        return self.row.number(self.step, name)

    def stream(self, name):
        """An open file for standard output or standard error."""
        if self.step.get("full") == name:
            return open("/dev/full", "wb")
        file = open(self.room / name, "wb")
        if name == "stdout" and "room" in self.step:
            file.write(bytes(ROOM - self.number("room")))
            file.flush()
        return file

    def stdin(self):
        """What is read: a file; a pipe that gives it in two pieces; or a terminal whose other end is closed."""
        if "pieces" in self.step:
            return subprocess.PIPE
        if "reads_folder" in self.step:
            return os.open(self.folder, os.O_RDONLY)
        if "read_fails_after" not in self.step:
            (self.room / "stdin").write_bytes(self.given)
            return open(self.room / "stdin", "rb")
        try:
            ours, theirs = pty.openpty()
        except OSError:
            raise Missing("rows whose reads fail (a terminal)") from None
        tty.setraw(theirs)
        os.write(theirs, self.given[: self.number("read_fails_after")])
        os.close(theirs)
        return ours

    def started(self):
        """Runs the command; its status, output and standard error."""
        stdin, files = self.stdin(), [self.stream("stdout"), self.stream("stderr")]
        streams = {"stdin": stdin, "stdout": files[0], "stderr": files[1]}
        child = subprocess.Popen(self.command, cwd=self.folder, env=self.env, **streams)
        try:
            if "pieces" in self.step:
                cut = self.number("pieces")
                child.stdin.write(self.given[:cut])
                child.stdin.flush()
                time.sleep(0.05)
                child.stdin.write(self.given[cut:])
                child.stdin.close()
            first = begun = time.monotonic()
            while "prompt" in self.step and child.poll() is None and not os.fstat(files[0].fileno()).st_size:
                time.sleep(0.005)
                first = time.monotonic()
            status = child.wait(SECONDS)
            told = "the first line comes late; on a busy machine this may be chance: run the row alone"
            assert first - begun <= time.monotonic() - first, told
        finally:
            child.kill()
            child.wait()
            for it in [*files, *([] if stdin == subprocess.PIPE else [stdin])]:
                os.close(it) if isinstance(it, int) else it.close()
        output, error = (read(self.room / it) if self.step.get("full") != it else b"" for it in ("stdout", "stderr"))
        return status, output[ROOM - self.number("room") :] if "room" in self.step else output, error

    def started_together(self, wanted):
        """Runs so many of the command at once, whose answers nobody reads."""
        quiet = dict.fromkeys(("stdin", "stdout", "stderr"), subprocess.DEVNULL)
        begun = [subprocess.Popen(self.command, cwd=self.folder, **quiet) for _ in range(self.step["together"])]
        for it in begun:
            it.wait(SECONDS)
        return 0, wanted, b""

    def refuses_each(self, wanted):
        """One of the first allocations is refused, each in turn: the command ends with 7 and says nothing, or does all
        without it; it is seen to end with 7. Then none is refused, and it does all."""
        self.env["LD_PRELOAD"] = shim("failing_malloc")
        seen = False
        for at in [*range(1, self.step["refuses_allocations"] + 1), 0]:
            self.env["FAIL_AT"] = str(at)
            ended = self.started()
            seen = seen or ended == (7, b"", b"")
            right = [(0, wanted, b"")] + ([(7, b"", b"")] if at else [])
            assert ended in right, f"allocation {at} is refused: status {ended[0]}"
        assert seen, "never ended with 7"


def feed(path, given):
    with contextlib.suppress(OSError):
        path.write_bytes(given)


def write(path, given):
    """Writes a file that its owner alone may read, as the programs make theirs: `station` says if it is otherwise."""
    with open(path, "wb", opener=lambda it, how: os.open(it, how, 0o600)) as file:
        file.write(given)


def read(path):
    """The bytes of a file; of anything else what it is."""
    try:
        kind = os.stat(path).st_mode
        return path.read_bytes() if stat.S_ISREG(kind) else f"(kind {stat.S_IFMT(kind):o})".encode()
    except OSError as fault:
        return f"({fault.strerror})".encode()


def difference(name, wanted, found):
    """What differs, or None."""
    if wanted == found:
        return None
    lines = [re.sub(r"(.{200}).+", r"\1 ..", it.decode("latin-1")).splitlines() for it in (wanted, found)]
    differing = difflib.unified_diff(*lines, f"{name} wanted", name, lineterm="", n=1)
    return "\n".join(itertools.islice(differing, 12)) or f"{name}: line ends differ, or the ends of long lines"


class Missing(Exception):
    """What a row wants and isn't installed."""


@functools.cache
def rooms():
    """The folder of all that is made here. However this process ends, another one that waits for its end removes it."""
    room = tempfile.mkdtemp(prefix="rows-")
    remover = 'cat; rm -rf "$0" || { sleep 5; rm -rf "$0"; }'
    rooms.remover = subprocess.Popen(["/bin/sh", "-c", remover, room], stdin=subprocess.PIPE, start_new_session=True)
    return room


# whether the rows run over programs that aren't proved
OVER_TRIED = False


@functools.cache
def tried(name):
    """The program of this very text as bin/try builds and keeps it; or the proved one, if it is of this text."""
    loader = importlib.machinery.SourceFileLoader("bin_try", str(TOP / "bin" / "try"))
    bin_try = importlib.util.module_from_spec(importlib.util.spec_from_loader("bin_try", loader))
    sys.dont_write_bytecode = True
    loader.exec_module(bin_try)
    status = subprocess.run([TOP / "bin" / "try", name], stdin=subprocess.DEVNULL, capture_output=True).returncode
    kept = bin_try.place_for(name, bin_try.text_of(name)[0])
    if kept and os.path.exists(kept):
        return kept
    if subprocess.run([TOP / "bin" / "proved", "--built", name], capture_output=True).returncode == 0:
        return TOP / "crates" / name / "out" / name
    raise FileNotFoundError(f"bin/try can't build {name}: status {status}")


def program_of(name):
    if not OVER_TRIED:
        return TOP / "crates" / name / "out" / name
    with BUILDING:
        return tried(name)


def shim(name):
    """The shared object of checks/shims/NAME.c, built once a process."""
    compiler = shutil.which(os.environ.get("CC", "cc"))
    if not compiler:
        raise Missing("rows of calls that fail (a C compiler)")
    with BUILDING:
        built = Path(rooms(), f"{name}.so")
        if not built.exists():
            source = CHECKS / "shims" / f"{name}.c"
            subprocess.run([compiler, "-O1", "-shared", "-fPIC", "-o", built, source, "-ldl"], check=True)
    return str(built)


def stored(kind, version, cells, puts):
    """A new store with these cells, each in hexadecimal digits to which zeros are added; `14*00` is fourteen of them.
    Then with these puts, each `PLACE:CELL`: to the other copy of a twin store, or after the cells of a log."""
    cell = lambda digits: bytes.fromhex(digits).ljust(32, b"\0")
    held, count = [], {}
    for times, _, digits in (it.rpartition("*") for it in cells.split()):
        held += [cell(digits)] * int(times or 1)
    before = 32768 * (version - 1)
    head = bytes(before) + b"SECOCST1" + bytes([kind, version]) + len(held).to_bytes(2, "big") + bytes(20)
    if kind == 1:
        body = b"".join(b"\xa7\0" + it + b"\xa7\2" + it for it in held)
    else:
        body = b"\xa7\0" + b"".join(held) + bytes(2240) + b"\0\2" + bytes(32 * len(held) + 2240)
    whole = bytearray(head + body)
    for number, (place, digits) in enumerate(it.split(":") for it in puts.split()):
        at = int(place)
        mark = count[at] = count.get(at, 0) + 1
        if kind == 1:
            start, new = 68 * at + 34 * (mark % 2), bytes([LIVE, mark % 3]) + cell(digits)
        else:
            start, new = 2 + 32 * len(held) + 35 * number, bytes([LIVE, 0, at]) + cell(digits)
        start += before + 32
        whole[start : start + len(new)] = new
    return bytes(whole)


def framed(flags, data):
    """A frame of these hexadecimal digits: a classic one, or one of CAN FD, of the next length that CAN FD has."""
    if len(data) <= 16:
        return b"#" + data
    length = next(it for it in (12, 16, 20, 24, 32, 48, 64) if len(data) <= 2 * it)
    return f"##{flags}".encode() + data.ljust(2 * length, b"0")


def cases(table):
    """The cases of a table of columns; <1..4> or <keep,old> in a cell stands for each of these."""
    head, *lines = [[cell.strip() for cell in line.split("|")] for line in table.strip().splitlines()]
    for line in lines:
        for values in itertools.product(*map(alternatives, line)):
            if len(values) != len(head):
                raise ValueError(f"a table with the columns {head} has the line {line}")
            yield dict(zip(head, values))


def alternatives(cell):
    """The texts that a cell stands for."""
    choice = re.search(r"<([^<>]*)>", cell)
    if not choice:
        return [re.sub(r"\\([nrt])", lambda it: {"n": "\n", "r": "\r", "t": "\t"}[it[1]], cell)]
    span = re.fullmatch(r"(\d+)\.\.(\d+)", choice[1])
    each = map(str, range(int(span[1]), int(span[2]) + 1)) if span else choice[1].split(",")
    return [text for it in each for text in alternatives(cell[: choice.start()] + it + cell[choice.end() :])]


def table_of(path):
    """A table of rows; if it is none, it says where."""
    try:
        return tomllib.loads(path.read_text())
    except tomllib.TOMLDecodeError as fault:
        raise ValueError(f"{path.name}: {fault}") from None


def rows():
    """Every row of every table."""
    common = table_of(CHECKS / "rows" / "common.toml")
    for path in sorted(CHECKS.glob("rows/*.toml")):
        if path.stem == "common":
            continue
        table = table_of(path)
        parts = ("names", "files", "tables", "forms")
        whole = {name: {**common.get(name, {}), **table.get(name, {})} for name in parts}
        for key, fields in table["rows"].items():
            try:
                yield from cases_of({"program": path.stem, **whole}, key, fields)
            except (KeyError, ValueError) as fault:
                raise ValueError(f"{path.name}: {key}: {fault}") from None


def cases_of(table, key, fields):
    """The rows of one entry of a table: one for each of its cases."""
    about, _ = whole_of(fields, table["forms"])
    each = [list(cases(table["tables"].get(it, it))) for it in about.get("each", [])]
    for chosen in itertools.product(*each):
        yield Row(table, key, fields, {name: value for it in chosen for name, value in it.items()})


def by_id():
    found = {}
    for row in rows():
        if found.setdefault(row.id, row) is not row:
            raise ValueError(f"two rows have the id {row.id}")
    return found


try:
    ROWS = by_id()
except ValueError as wrong:
    if __name__ != "__main__":
        raise
    sys.exit(f"FAILED: {wrong}\nrows: 0 passed, 1 failed")


def pytest_generate_tests(metafunc):
    metafunc.parametrize("row", ROWS.values(), ids=ROWS.keys())


def test_row(row):
    try:
        row.play()
    except Missing as what:
        import pytest

        pytest.skip(str(what))


def outcome(row):
    """"passed", why it is skipped, or what differs."""
    try:
        row.play()
    except Missing as what:
        return f"skipped: {what}"
    except Exception as fault:
        return f"FAILED: {row.id}: {fault}"
    return "passed"


def main(texts):
    global OVER_TRIED
    if texts[:1] == ["--try"]:
        OVER_TRIED, texts = True, texts[1:]
        os.environ["ASAN_OPTIONS"] = "verify_asan_link_order=0"
    # a whole id names its row alone
    chosen = [row for row in ROWS.values() if [row.id] == texts] or [row for row in ROWS.values() if all(it in row.id for it in texts)]
    if not chosen:
        print(f"FAILED: no row's id has {' and '.join(texts)}\nrows: 0 passed, 1 failed")
        return 1
    try:
        rooms()
    except OSError as fault:
        print(f"FAILED: {fault}\nrows: 0 passed, 1 failed")
        return 1
    pool = concurrent.futures.ThreadPoolExecutor(len(os.sched_getaffinity(0)))
    try:
        outcomes = list(pool.map(outcome, chosen))
    except KeyboardInterrupt:
        os._exit(130)
    said = [it for it in dict.fromkeys(outcomes) if it != "passed"]
    failed = sum(it.startswith("FAILED") for it in outcomes)
    print(*said, f"rows: {outcomes.count('passed')} passed, {failed} failed", sep="\n")
    return bool(failed)


if __name__ == "__main__":
    sys.exit(main(sys.argv[1:]))
