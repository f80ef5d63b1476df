"""A store in a file: its mode, lock and folder, what each call does to the file, and kills at any moment.

RATHONSI_KILLS says how many kills are made (60).
"""

import errno
import fcntl
import os
import random
import resource
import select
import shutil
import signal
import stat
import subprocess
import sys
import tempfile
import time
import traceback
from collections.abc import Callable
from pathlib import Path
from typing import Any

import pytest

import model
import rathonsi
from memories import KEY, KEYS, MASTER, ROUTES, UID

EXAMPLES = Path(__file__).resolve().parents[2] / "examples"
BUS_REPLAY = EXAMPLES.parent / "crates" / "bus_replay" / "out" / "bus_replay"
KILLS = int(os.environ.get("RATHONSI_KILLS", "60"))
SENDS, RECEIVES = rathonsi.SENDS, rathonsi.RECEIVES


@pytest.fixture
def made(tmp_path: Path) -> Path:
    path = tmp_path / "unit.store"
    rathonsi.make_file_store(path, ROUTES, KEYS)
    return path


def test_a_store_goes_on_above_its_freshness(made: Path) -> None:
    with rathonsi.FileStore(made, ROUTES) as store:
        assert [store.send(0x120E, b"x") for _ in range(3)] == [model.protect(KEY, 0x120E, n, b"x") for n in (1, 2, 3)]
    with rathonsi.FileStore(str(made), ROUTES) as store:
        assert store.send(0x120E, b"x") == model.protect(KEY, 0x120E, 5, b"x")
        pdu = model.protect(KEY, 0x120F, 7, b"brake")
        assert store.receive(0x120F, pdu) == rathonsi.Accepted(b"brake", 7)
    with rathonsi.FileStore(made, ROUTES) as store:
        with pytest.raises(rathonsi.VerificationFailure):
            store.receive(0x120F, pdu)


def test_a_store_without_routes_loads_keys(made: Path) -> None:
    messages = model.request(MASTER, UID, 5, 1, 2, 3, b"\5" * 16)
    with rathonsi.FileStore(made) as store:
        assert store.load(UID, rathonsi.Request(*messages)) == rathonsi.Reply(*model.reply(UID, 5, 1, 3, b"\5" * 16))
        with pytest.raises(ValueError):
            store.send(0x120E, b"x")
    with rathonsi.FileStore(made, ROUTES) as store:
        assert store.counter(0x120E, SENDS) == 0


def test_the_file_has_the_mode_600_and_the_size_of_its_store(tmp_path: Path) -> None:
    old = os.umask(0)
    try:
        rathonsi.make_file_store(tmp_path / "unit.store", ROUTES)
    finally:
        os.umask(old)
    about = (tmp_path / "unit.store").stat()
    assert stat.S_IMODE(about.st_mode) == 0o600 and about.st_size == 32 + 68 * 16


@pytest.mark.parametrize("mode", [0o604, 0o640, 0o610, 0o666])
def test_a_file_that_others_may_use_is_refused(made: Path, mode: int) -> None:
    made.chmod(mode)
    with pytest.raises(PermissionError, match="chmod 600"):
        rathonsi.FileStore(made, ROUTES)
    made.chmod(0o600)
    rathonsi.FileStore(made, ROUTES).close()


def test_the_file_is_locked(made: Path) -> None:
    store = rathonsi.FileStore(made, ROUTES)
    calls: list[Callable[[], object]] = [lambda: rathonsi.FileStore(made, ROUTES), lambda: rathonsi.make_file_store(made, ROUTES)]
    for call in calls:
        with pytest.raises(BlockingIOError, match="another"):
            call()
    store.send(0x120E, b"x")
    store.close()
    store.close()
    with open(made, "rb") as other:
        fcntl.flock(other, fcntl.LOCK_EX | fcntl.LOCK_NB)
        with pytest.raises(BlockingIOError):
            rathonsi.FileStore(made, ROUTES)
    rathonsi.FileStore(made, ROUTES).close()


def test_a_file_that_is_replaced_while_it_is_opened(made: Path, monkeypatch: pytest.MonkeyPatch) -> None:
    lock = fcntl.flock

    def replace(file: int, how: int) -> None:
        lock(file, how)
        other = made.with_name("other")
        other.write_bytes(made.read_bytes())
        other.rename(made)

    monkeypatch.setattr(fcntl, "flock", replace)
    with pytest.raises(BlockingIOError, match="replaced"):
        rathonsi.FileStore(made, ROUTES)


def test_what_is_no_store_of_this_package(tmp_path: Path, made: Path) -> None:
    with pytest.raises(FileNotFoundError):
        rathonsi.FileStore(tmp_path / "none", ROUTES)
    with pytest.raises(FileNotFoundError):
        rathonsi.make_file_store(tmp_path / "no_folder" / "unit.store", ROUTES)
    assert not (tmp_path / "none").exists()
    with pytest.raises(IsADirectoryError):
        rathonsi.FileStore(tmp_path, ROUTES)
    os.mkfifo(tmp_path / "pipe", 0o600)
    with pytest.raises(OSError):
        rathonsi.FileStore(tmp_path / "pipe", ROUTES)
    with pytest.raises(OSError):
        rathonsi.FileStore("/dev/null", ROUTES)
    (tmp_path / "text").touch(0o600)
    with pytest.raises(rathonsi.NoStore):
        rathonsi.FileStore(tmp_path / "text", ROUTES)
    (tmp_path / "text").write_bytes(b"a text of some length that is no store")
    with pytest.raises(rathonsi.NoStore):
        rathonsi.FileStore(tmp_path / "text", ROUTES)
    for path in (made, tmp_path / "text"):
        content = path.read_bytes()
        with pytest.raises(FileExistsError):
            rathonsi.make_file_store(path, ROUTES, KEYS)
        assert path.read_bytes() == content
    for wrong in (5, None, b"bytes", ["unit.store"]):
        with pytest.raises(TypeError):
            rathonsi.FileStore(wrong, ROUTES)  # type: ignore[arg-type]
    with pytest.raises(ValueError):
        rathonsi.FileStore("a\0b", ROUTES)


def test_files_of_another_length_kind_and_version_are_left_alone(tmp_path: Path, made: Path) -> None:
    with rathonsi.FileStore(made, ROUTES) as store:
        store.send(0x120E, b"x")
    content = made.read_bytes()
    second = content[:9] + b"\2" + content[10:32]
    for other in (content[:-1], content[:100], content[:9], content[:8] + b"\2" + content[9:], content.ljust(32768, b"\0") + second):
        path = tmp_path / "other"
        path.write_bytes(other)
        path.chmod(0o600)
        with pytest.raises(rathonsi.NoStore, match="another kind|version 2"):
            rathonsi.FileStore(path, ROUTES)
        with pytest.raises(FileExistsError):
            rathonsi.make_file_store(path, ROUTES, KEYS)
        assert path.read_bytes() == other


@pytest.mark.skipif(not BUS_REPLAY.exists(), reason="bus_replay isn't built")
def test_a_file_of_node_goes_on_here_and_there_until_it_is_moved(tmp_path: Path) -> None:
    def node(bus: Path) -> int:
        """The freshness that the pedal sends."""
        run: list[str | Path] = [BUS_REPLAY, "node", bus, EXAMPLES / "pedal.txt", tmp_path / "disk"]
        printed = subprocess.run(run, capture_output=True, text=True, check=True).stdout
        return int(printed.split("sent 6bc1 ")[1].split()[0], 16)

    route = rathonsi.Route(0x6BC1, SENDS, 4, reserve=4)
    first = node(EXAMPLES / "pedal.toml")
    with rathonsi.FileStore(tmp_path / "disk", [route]) as store:
        store.send(0x6BC1, b"x")
        here = store.counter(0x6BC1, SENDS)
    there = node(EXAMPLES / "pedal.toml")
    assert first < here < there
    (tmp_path / "moved.toml").write_text("version = 2\n" + (EXAMPLES / "pedal.toml").read_text())
    assert there < node(tmp_path / "moved.toml")
    with pytest.raises(rathonsi.NoStore, match="version 2"):
        rathonsi.FileStore(tmp_path / "disk", [route])


def test_a_making_that_was_cut_within_its_header_goes_on_whatever_that_holds(made: Path) -> None:
    whole = made.read_bytes()
    drawn = random.Random(57)
    for header in [whole[:11] + bytes([byte]) + whole[12:32] for byte in range(256)] + [drawn.randbytes(32) for _ in range(20)]:
        if header != whole[:32]:
            made.write_bytes(header + whole[32:])
            rathonsi.make_file_store(made, ROUTES, KEYS)
        assert made.read_bytes() == whole
    with pytest.raises(FileExistsError):
        rathonsi.make_file_store(made, ROUTES, KEYS)


def test_a_link_to_a_store_and_a_second_name_of_it(made: Path) -> None:
    made.with_name("link").symlink_to(made.name)
    made.with_name("name").hardlink_to(made)
    with rathonsi.FileStore(made.with_name("link"), ROUTES) as store:
        assert store.send(0x120E, b"x") == model.protect(KEY, 0x120E, 1, b"x")
        for name in ("unit.store", "name"):
            with pytest.raises(BlockingIOError):
                rathonsi.FileStore(made.with_name(name), ROUTES)
    made.with_name("to_none").symlink_to("new.store")
    rathonsi.make_file_store(made.with_name("to_none"), ROUTES, KEYS)
    rathonsi.FileStore(made.with_name("new.store"), ROUTES).close()


def test_a_second_process_is_refused_while_the_first_has_the_store(made: Path) -> None:
    lines = f"import rathonsi; rathonsi.FileStore({str(made)!r}); print('opened')"
    run = [sys.executable, "-c", lines]
    env = {**os.environ, "PYTHONPATH": os.pathsep.join(sys.path)}
    with rathonsi.FileStore(made, ROUTES):
        refused = subprocess.run(run, capture_output=True, text=True, env=env)
        assert refused.returncode == 1 and "BlockingIOError" in refused.stderr
    assert subprocess.run(run, capture_output=True, text=True, env=env, check=True).stdout == "opened\n"


ON_A_SMALL_DISK = """
import errno, pathlib, sys
import rathonsi
path = pathlib.Path(sys.argv[1], "unit.store")
with open(path.with_name("filler"), "wb", buffering=0) as filler:
    try:
        while True:
            filler.write(bytes(4096))
    except OSError as error:
        assert error.errno == errno.ENOSPC
routes = [rathonsi.Route(1, rathonsi.SENDS, 4)]
try:
    rathonsi.make_file_store(path, routes, {4: bytes(16)})
except OSError as error:
    print(error.strerror)
path.with_name("filler").unlink()
rathonsi.make_file_store(path, routes, {4: bytes(16)})
with rathonsi.FileStore(path, routes) as store:
    print(store.send(1, b"x") == rathonsi.protect(bytes(16), 1, 1, b"x"))
"""


def test_a_making_on_a_full_disk_goes_on_when_there_is_room(tmp_path: Path) -> None:
    run = ["unshare", "--map-root-user", "--mount", "sh", "-c"]
    if shutil.which("unshare") is None or subprocess.run([*run, "mount -t tmpfs none /mnt"], capture_output=True).returncode != 0:
        pytest.skip("no file system can be mounted here")
    mounted = 'mount -t tmpfs -o size=64k none "$0" && exec "$1" -c "$2" "$0"'
    env = {**os.environ, "PYTHONPATH": os.pathsep.join(sys.path)}
    ended = subprocess.run([*run, mounted, tmp_path, sys.executable, ON_A_SMALL_DISK], capture_output=True, text=True, env=env)
    assert (ended.returncode, ended.stdout, ended.stderr) == (0, "No space left on device\nTrue\n", "")


def in_child(work: Callable[[], None]) -> int:
    """The status that a forked child ends with, which does this work."""
    child = os.fork()
    if child == 0:
        try:
            work()
        except BaseException:
            traceback.print_exc()
        finally:
            os._exit(9)
    return os.waitstatus_to_exitcode(os.waitpid(child, 0)[1])


def test_a_write_for_which_the_system_has_no_room(made: Path) -> None:
    def work() -> None:
        store = rathonsi.FileStore(made, ROUTES)
        resource.setrlimit(resource.RLIMIT_FSIZE, (32 + 68 * 14 + 40, resource.RLIM_INFINITY))
        with pytest.raises(OSError, match="too large"):
            store.send(0x120E, b"x")
        with pytest.raises(rathonsi.Unusable):
            store.send(0x120E, b"x")
        os._exit(7)

    assert in_child(work) == 7
    with rathonsi.FileStore(made, ROUTES) as again:
        assert again.send(0x120E, b"x") == model.protect(KEY, 0x120E, 1, b"x")


@pytest.mark.parametrize("nth", range(4))
def test_a_process_that_ends_within_any_write(made: Path, monkeypatch: pytest.MonkeyPatch, nth: int) -> None:
    content, write = made.read_bytes(), os.pwrite

    def send(whole: int) -> None:
        def stop(fd: int, data: bytes, offset: int) -> int:
            writes.append(offset)
            if len(writes) > nth:
                write(fd, data[:whole], offset)
                os._exit(7)
            return write(fd, data, offset)

        writes: list[int] = []
        store = rathonsi.FileStore(made, ROUTES)
        monkeypatch.setattr(os, "pwrite", stop)
        store.send(0x120E, b"x")
        os._exit(8)

    for whole in range(35):
        made.write_bytes(content)
        # a put over a fresh cell has the writes of 33 bytes and of its gate, after one that closes the gate
        status = in_child(lambda: send(whole))
        with rathonsi.FileStore(made, ROUTES) as again:
            counter = again.counter(0x120E, SENDS)
        assert (status, counter) in ((8, 4), (7, 0), (7, 4)) and (status == 8) == (nth == 3)
        assert counter == 0 or nth == 3 or nth == 2 and whole


def test_an_end_within_a_write_leaves_the_file_to_that_write(made: Path, monkeypatch: pytest.MonkeyPatch) -> None:
    """As a handler of a signal does it, that closes the store and opens another file, which may get the number."""
    store, other, write = rathonsi.FileStore(made, ROUTES), made.with_name("other"), os.pwrite

    def close_first(fd: int, data: bytes, offset: int) -> int:
        store.close()
        with open(other, "wb"):
            return write(fd, data, offset)

    monkeypatch.setattr(os, "pwrite", close_first)
    with pytest.raises(rathonsi.Unusable, match="closed"):
        store.send(0x120E, b"x")
    monkeypatch.undo()
    assert other.read_bytes() == b""
    rathonsi.FileStore(made, ROUTES).close()


def test_folders_and_files_that_may_not_be_written() -> None:
    def work() -> None:
        if os.geteuid() == 0:
            os.setgroups([])
            os.setgid(65534)
            os.setuid(65534)
        path = Path(folder, "unit.store")
        rathonsi.make_file_store(path, ROUTES, KEYS)
        path.parent.chmod(0o500)
        with pytest.raises(PermissionError):
            rathonsi.make_file_store(path.with_name("new"), ROUTES, KEYS)
        with rathonsi.FileStore(path, ROUTES) as store:
            assert store.send(0x120E, b"x") == model.protect(KEY, 0x120E, 1, b"x")
        for mode in (0o400, 0o000):
            path.chmod(mode)
            with pytest.raises(PermissionError):
                rathonsi.FileStore(path, ROUTES)
        path.parent.chmod(0o700)
        os._exit(7)

    with tempfile.TemporaryDirectory() as folder:
        if os.geteuid() == 0:
            os.chown(folder, 65534, 65534)
        assert in_child(work) == 7


def test_a_refused_opening_gives_the_lock_back(made: Path) -> None:
    with pytest.raises(rathonsi.WrongCell):
        rathonsi.FileStore(made, [rathonsi.Route(1, SENDS, 4)])
    rathonsi.FileStore(made, ROUTES).close()


def test_a_longer_file_as_the_programs_make_it(made: Path) -> None:
    os.truncate(made, 65536)
    with rathonsi.FileStore(made, ROUTES) as store:
        assert store.send(0x120E, b"x") == model.protect(KEY, 0x120E, 1, b"x")


class Calls:
    """The calls of the system that touch a file, in their order, and which one is to fail."""

    def __init__(self, monkeypatch: pytest.MonkeyPatch) -> None:
        self.names: list[str] = []
        self.fails_at: int | None = None
        for name in ("pwrite", "fsync", "pread", "posix_fadvise"):
            monkeypatch.setattr(os, name, self.watched(name, getattr(os, name)))

    def watched(self, name: str, call: Callable[..., Any]) -> Callable[..., Any]:
        def watch(fd: int, *arguments: Any) -> Any:
            self.names.append("fsync folder" if name == "fsync" and stat.S_ISDIR(os.fstat(fd).st_mode) else name)
            if self.fails_at is not None and len(self.names) > self.fails_at:
                raise OSError(errno.EIO, "the disk fails")
            return call(fd, *arguments)

        return watch


def test_each_write_is_synced_before_the_next(made: Path, monkeypatch: pytest.MonkeyPatch) -> None:
    calls = Calls(monkeypatch)
    store = rathonsi.FileStore(made, ROUTES)
    assert calls.names[:3] == ["fsync folder", "fsync", "posix_fadvise"] and set(calls.names[3:]) == {"pread"}
    calls.names.clear()
    store.send(0x120E, b"x")
    assert calls.names in (["pwrite", "fsync"] * 2, ["pwrite", "fsync"] * 3)
    calls.names.clear()
    for _ in range(3):
        store.send(0x120E, b"x")
    assert calls.names == []
    calls.names.clear()
    rathonsi.make_file_store(made.with_name("new"), ROUTES)
    assert calls.names[0] == "fsync folder" and calls.names[-6:] == ["pwrite", "fsync"] * 3


def test_a_short_write_is_gone_on_with(made: Path, monkeypatch: pytest.MonkeyPatch) -> None:
    write = os.pwrite
    monkeypatch.setattr(os, "pwrite", lambda fd, data, offset: write(fd, data[:5], offset))
    with rathonsi.FileStore(made, ROUTES) as store:
        store.send(0x120E, b"x")
    monkeypatch.undo()
    with rathonsi.FileStore(made, ROUTES) as store:
        assert store.counter(0x120E, SENDS) == 4


@pytest.mark.parametrize("nth", range(6))
def test_a_failed_call_makes_the_object_unusable_and_frees_the_file(made: Path, monkeypatch: pytest.MonkeyPatch, nth: int) -> None:
    store = rathonsi.FileStore(made, ROUTES)
    store.send(0x120E, b"x")
    for _ in range(3):
        store.send(0x120E, b"x")
    calls = Calls(monkeypatch)
    calls.fails_at = nth
    with pytest.raises(OSError, match="the disk fails"):
        store.send(0x120E, b"x")
    assert len(calls.names) == nth + 1
    monkeypatch.undo()
    with pytest.raises(rathonsi.Unusable):
        store.send(0x120E, b"x")
    with rathonsi.FileStore(made, ROUTES) as again:
        counter = again.counter(0x120E, SENDS)
        assert counter in (4, 8)
        assert again.send(0x120E, b"x") == model.protect(KEY, 0x120E, counter + 1, b"x")


def test_a_forked_child_has_no_store_and_keeps_no_lock(made: Path) -> None:
    store = rathonsi.FileStore(made, ROUTES)
    ends, parent = os.pipe()
    child = os.fork()
    if child == 0:
        os.close(parent)
        try:
            store.send(0x120E, b"x")
        except rathonsi.Unusable:
            os.read(ends, 1)
            os._exit(7)
        os._exit(0)
    os.close(ends)
    store.send(0x120E, b"x")
    store.close()
    rathonsi.FileStore(made, ROUTES).close()
    os.close(parent)
    assert os.waitstatus_to_exitcode(os.waitpid(child, 0)[1]) == 7


def test_a_making_that_was_killed_goes_on(tmp_path: Path, monkeypatch: pytest.MonkeyPatch) -> None:
    for nth in range(6):
        path = tmp_path / f"unit{nth}.store"
        count = 0
        write = os.pwrite

        def stop(fd: int, data: bytes, offset: int) -> int:
            nonlocal count
            count += 1
            if count > nth:
                raise OSError(errno.EIO, "the disk fails")
            return write(fd, data, offset)

        monkeypatch.setattr(os, "pwrite", stop)
        try:
            rathonsi.make_file_store(path, ROUTES, KEYS)
        except OSError:
            assert nth < 3
        else:
            assert nth >= 3
        monkeypatch.undo()
        if nth < 3:
            with pytest.raises(rathonsi.NoStore):
                rathonsi.FileStore(path, ROUTES)
            rathonsi.make_file_store(path, ROUTES, KEYS)
        with rathonsi.FileStore(path, ROUTES) as store:
            assert store.send(0x120E, b"x") == model.protect(KEY, 0x120E, 1, b"x")


# ---- Kills


def run_child(path: Path, out: int, seed: int) -> None:
    """Makes the store if it isn't there, opens it, and sends, receives and loads for ever; each PDU, acceptance and
    reply is told on a pipe as it goes out."""
    drawn = random.Random(seed)
    reserve = drawn.randrange(1, 6)
    routes = [rathonsi.Route(0x120E, SENDS, 4, reserve=reserve), rathonsi.Route(0x120F, RECEIVES, 4, reserve=reserve)]
    try:
        rathonsi.make_file_store(path, ROUTES, KEYS)
    except FileExistsError:
        pass
    store = rathonsi.FileStore(path, routes)
    while True:
        turn = drawn.randrange(20)
        if turn < 9:
            os.write(out, b"s" + store.send(0x120E, b"8 bytes."))
        elif turn < 18:
            freshness = store.counter(0x120F, RECEIVES) + drawn.randrange(1, 3)
            store.receive(0x120F, model.protect(KEY, 0x120F, freshness, b"8 bytes."))
            os.write(out, b"r" + freshness.to_bytes(12, "big"))
        else:
            counter = time.monotonic_ns() // 1_000_000 % 2**28
            try:
                store.load(UID, rathonsi.Request(*model.request(MASTER, UID, 5, 1, 2, counter, KEY)))
                os.write(out, b"k" + counter.to_bytes(12, "big"))
            except rathonsi.KeyUpdateError:
                pass  # the last one was in this millisecond


def counter_in(reply: rathonsi.Reply) -> int:
    return int.from_bytes(model.decrypt(model.derive(KEY, 1), reply.m4[16:]), "big") >> 100


class Seen:
    """What all lives have sent, accepted and confirmed."""

    sent = accepted = confirmed = messages = 0

    def take(self, message: bytes) -> None:
        self.messages += 1
        if message[:1] == b"s":
            self.sent = next(n for n in range(self.sent + 1, self.sent + 300) if model.protect(KEY, 0x120E, n, b"8 bytes.") == message[1:])
            return
        number = int.from_bytes(message[1:], "big")
        if message[:1] == b"r":
            assert number > self.accepted
            self.accepted = number
        else:
            assert number > self.confirmed
            self.confirmed = number


def kill_one(path: Path, seed: int, seconds: float, seen: Seen) -> None:
    incoming, out = os.pipe()
    child = os.fork()
    if child == 0:
        try:
            os.close(incoming)
            run_child(path, out, seed)
        finally:
            os._exit(9)
    os.close(out)
    told = b""
    until = time.monotonic() + seconds
    while (left := until - time.monotonic()) > 0:
        if select.select([incoming], [], [], left)[0]:
            told += os.read(incoming, 65536)
    os.kill(child, signal.SIGKILL)
    while piece := os.read(incoming, 65536):
        told += piece
    os.close(incoming)
    assert os.WIFSIGNALED(os.waitpid(child, 0)[1]), "the child ended by itself"
    assert len(told) % 13 == 0
    for at in range(0, len(told), 13):
        seen.take(told[at : at + 13])


def test_a_child_that_is_killed_at_any_moment(tmp_path: Path) -> None:
    drawn, seen = random.Random(57), Seen()
    path = tmp_path / "unit.store"
    for seed in range(KILLS):
        if drawn.randrange(40) == 0:
            path.unlink(missing_ok=True)
            seen = Seen()
        kill_one(path, seed, drawn.choice([0.003, 0.03]) * drawn.random(), seen)
        if path.exists() and seen.messages:
            with rathonsi.FileStore(path, ROUTES) as store:
                assert store.counter(0x120E, SENDS) >= seen.sent
                assert store.counter(0x120F, RECEIVES) >= seen.accepted
                if seen.confirmed:
                    assert counter_in(store.confirm(UID, model.head_of(UID, 5, 1))) >= seen.confirmed
