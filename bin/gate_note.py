"""What the last gate of this checkout passed over: a sum of each crate's text, and the sum of each program that it built.
.ci/run has it written to out/gate.json by bin/claims, which reads it again.
"""
import hashlib
import json
import os
import subprocess
import time

import sources

NOTE = os.path.join("out", "gate.json")
LIBRARY = "librathonsi.a"


def text_of(path, top):
    with open(os.path.join(top, path), encoding="utf-8") as it:
        return it.read()


def sum_of_file(path):
    with open(path, "rb") as it:
        return hashlib.sha256(it.read()).hexdigest()


def crates_below(top=sources.TOP):
    """Each crate of crates.txt with its line, and each with all that it stands on and itself."""
    lines = [line.partition("#")[0].strip() for line in text_of("crates.txt", top).split("\n")]
    lines = {line.split()[0].rstrip(":"): line for line in lines if ":" in line}
    below = {}
    for crate, line in lines.items():
        named = [it for it in line.partition(":")[2].split() if it in lines]
        below[crate] = {crate}.union(*(below.get(it, {it}) for it in named))
    return lines, below


def kit_version():
    """What the kit says of itself, or nothing if there is none."""
    try:
        return subprocess.run(["rt", "version"], stdout=subprocess.PIPE, check=True).stdout.decode().strip()
    except (OSError, subprocess.CalledProcessError):
        return ""


def text_files(crate, top=sources.TOP):
    """The files of which a crate's text is made, in one order."""
    for part in ("src", "specs", "proofs"):
        for folder, folders, names in os.walk(os.path.join(top, "crates", crate, part)):
            folders.sort()
            yield from (os.path.join(folder, name) for name in sorted(names))


def sums_of_text(top=sources.TOP):
    """A sum of each crate's text, its line of crates.txt and HANDLES, with those of all crates below it."""
    lines, below = crates_below(top)
    own = {}
    for crate, line in lines.items():
        made = own[crate] = hashlib.sha256(repr((text_of("HANDLES", top), line)).encode())
        for path in text_files(crate, top):
            with open(path, "rb") as it:
                made.update(repr((os.path.relpath(path, top), it.read())).encode())
    own = {crate: it.hexdigest() for crate, it in own.items()}
    return {crate: hashlib.sha256("".join(own[it] for it in sorted(below[crate])).encode()).hexdigest() for crate in lines}


def programs_of(top=sources.TOP):
    """Each program that is built, and the library for C: its crate and its file, by name."""
    found = {}
    for crate in crates_below(top)[0]:
        for name in (crate, LIBRARY):
            path = os.path.join(top, "crates", crate, "out", name)
            if os.path.isfile(path):
                found[name] = crate, path
    return found


def note_passed(before, top=sources.TOP):
    """Notes that the gate passed, before which the crates' texts had these sums. Gives the crates whose text is another
    one now, it or that of a crate below, of which nothing is noted."""
    now = sums_of_text(top)
    texts = {crate: it for crate, it in now.items() if it == before.get(crate)}
    programs = {name: sum_of_file(file) for name, (crate, file) in programs_of(top).items() if crate in texts}
    os.makedirs(os.path.join(top, os.path.dirname(NOTE)), exist_ok=True)
    with open(os.path.join(top, NOTE), "w", encoding="utf-8") as it:
        json.dump({"date": time.strftime("%Y-%m-%d"), "kit": kit_version(), "texts": texts, "programs": programs}, it, indent=1)
    return sorted(now.keys() - texts)


class Gate:
    """The note, beside the text and the programs as they are now."""

    def __init__(self, top=sources.TOP):
        try:
            self.note = json.loads(text_of(NOTE, top))
        except FileNotFoundError:
            self.note = {"date": "", "kit": "", "texts": {}, "programs": {}}
        self.now = sums_of_text(top) if self.note["texts"] else {}
        self.built = programs_of(top)

    def passed(self):
        """When the last gate passed, and with what kit."""
        with_kit = f", with {self.note['kit']}" if self.note["kit"] else ""
        return f"passed on {self.note['date']}{with_kit}" if self.note["texts"] else "has not passed in this checkout"

    def says(self, crate):
        """Whether the gate passed over this crate and all below it as they stand."""
        if crate not in self.note["texts"]:
            return "no gate has passed over it in this checkout"
        if self.note["texts"][crate] != self.now.get(crate):
            return "changed since the gate, it or a crate below"
        return f"proved as it stands, sum {self.now[crate][:16]}"

    def programs_of(self, crate, below):
        """The programs that are built from this crate. If it has laws and no code, those of which these speak: all that
        they are built from is below it."""
        names = {*self.note["programs"], *self.built}
        under = {name: below.get(of, {of}) - {name} for name in names for of in [self.built.get(name, [name])[0]]}
        found = [name for name in names if crate in under[name]]
        return sorted(found or [name for name in names if under[name] and under[name] <= below[crate]])

    def lines(self, names):
        """The sum of each of these programs, and whether that is the one which is there now."""
        for name in names:
            noted, there = self.note["programs"].get(name), self.built.get(name)
            if noted:
                told = "" if there and sum_of_file(there[1]) == noted else "  (what is there now is another one)"
                yield f"{noted}  {name}{told}"
