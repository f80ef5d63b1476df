"""Reads the contracts and the definitions out of crates/, of the files as they stand or of a commit. bin/clauses and
bin/claims stand on it. It knows the layout of rt fmt: an item begins in the first column, a method in the fifth.
"""
import os
import re
import subprocess
from typing import NamedTuple

TOP = os.path.dirname(os.path.dirname(os.path.realpath(__file__)))
# the name of each definition that begins in this line
DEFINES = re.compile(r"(?:(?:abbrev|unfoldable)(?: pub)?|(?:pub )?(?:record|data)|module) ([^\s(:{]+)")
MEMBER = re.compile(r"  (?:pub )?([^\W\d][\w'-]*) : ")
FUNCTION = re.compile(r'(?m)^(    )?(?:#\[[^\]\n]*\] *)?(pub )?(?:const |unsafe |extern "C" )*fn (\w+)')
SIGNATURE_ENDS = re.compile(r"(?m)\b(?:ensures|requires)\b(?= *\w* *\{)|\{|;$")
CLAUSE = re.compile(r"\s*(ensures|requires)(?: (\w+))? *\{")
GHOST = re.compile(r"(?m)^    ghost (?!use )(\w+)[^{\n]*\{")
OWNER = re.compile(r"(?m)^(?:pub )?(?:unsafe )?(impl|trait|struct|enum)\b(.*?)[{;]", re.DOTALL)
NUMBER = re.compile(r"(?m)^ *(?:pub )?const (\w+): \w+ = (\d[\d_]*);")
# a string, or what opens or closes a clause
PIECE = re.compile(r'"(?:[^"\\]|\\.)*"|[{}]')
STRING = re.compile(r'"(?:[^"\\]|\\.)*"')
USE = re.compile(r"(?m)^ *(?:pub |ghost )?use Rattle\.([\w.]+?)\.\{([^}]*)\}")
# a name, or an operator
NAME = re.compile(r"[^\W\d][\w'-]*|[^\s\w(){}\[\].,;:]+")


class Clause(NamedTuple):
    kind: str  # ensures or requires
    name: str  # empty if it has none
    text: str  # in one line, without the braces
    line: int


class Function(NamedTuple):
    crate: str
    owner: str  # `Disk for FileDisk`, or empty
    name: str
    file: str
    line: int
    clauses: list


class Definition(NamedTuple):
    crate: str
    name: str
    file: str
    line: int  # of its first line of code
    comment: list  # the lines right above it
    body: list  # its lines, comments too


def files_as_they_stand(top=TOP):
    """The path of each .rt file in src/ and each .antt file in specs/ of a crate, with its text."""
    found = {}
    for folder, _, names in os.walk(os.path.join(top, "crates")):
        for name in names:
            path = os.path.relpath(os.path.join(folder, name), top)
            if is_source(path):
                with open(os.path.join(top, path), encoding="utf-8") as it:
                    found[path] = it.read()
    return dict(sorted(found.items()))


def is_source(path):
    parts = path.split("/")
    return len(parts) > 3 and (parts[2], os.path.splitext(path)[1]) in {("src", ".rt"), ("specs", ".antt")}


def git(*words, top=TOP, given=None):
    """What git says. A fault of git is a CalledProcessError, and FileNotFoundError if there is no git."""
    ran = subprocess.run(["git", "-C", top, *words], input=given, capture_output=True, check=True)
    return ran.stdout


def files_of_commit(commit, top=TOP):
    """The same of a commit."""
    listed = git("ls-tree", "-r", "--name-only", "-z", commit, "crates/", top=top).decode().split("\0")
    paths = [path for path in listed if is_source(path)]
    out = git("cat-file", "--batch", top=top, given="".join(f"{commit}:{path}\n" for path in paths).encode())
    found, at = {}, 0
    for path in paths:
        head = out.index(b"\n", at)
        end = head + 1 + int(out[at:head].split()[-1])
        found[path] = out[head + 1 : end].decode()
        at = end + 1
    return found


def flat(text):
    """The text in one line, with single blanks."""
    return " ".join(text.split())


def without_comments(text, mark):
    """The text with the lines that are comments alone made empty, so that each line keeps its number."""
    return "\n".join("" if line.lstrip().startswith(mark) else line for line in text.split("\n"))


def end_of_braces(text, at):
    """Where the brace stands that closes the one right before this place."""
    depth = 1
    for piece in PIECE.finditer(text, at):
        depth += {"{": 1, "}": -1}.get(piece[0], 0)
        if not depth:
            return piece.start()
    raise ValueError(f"a brace that nothing closes: {flat(text[at:])[:80]}")


def line_of(text, at):
    return text.count("\n", 0, at) + 1


def clauses_from(text, at):
    """The clauses that stand one after another from this place on."""
    while head := CLAUSE.match(text, at):
        end = end_of_braces(text, head.end())
        yield Clause(head[1], head[2] or "", flat(text[head.end() : end]), line_of(text, head.start(1)))
        at = end + 1


def owners_in(text):
    """Where each impl and trait begins, with its name: `Tx`, `Disk for FileDisk`, `trait Disk`."""
    for head in OWNER.finditer(text):
        words, old = head[2], None
        while words != old:
            old, words = words, re.sub(r"<[^<>]*>", "", words)
        words = flat(re.split(r"\bwhere\b|[:(]", words)[0])
        yield head.start(), words if head[1] == "impl" else f"{head[1]} {words}"


def functions_in(files):
    """The public functions with their clauses, those of traits and of their impls too."""
    for path, text in files.items():
        if not path.endswith(".rt"):
            continue
        text = without_comments(text, "//")
        owners = list(owners_in(text))
        for head in FUNCTION.finditer(text):
            owner = next((name for at, name in reversed(owners) if at < head.start()), "") if head[1] else ""
            if not (head[2] or " for " in owner or owner.startswith("trait ")):
                continue
            end = SIGNATURE_ENDS.search(text, head.end())
            clauses = list(clauses_from(text, end.start())) if end else []
            yield Function(path.split("/")[1], owner, head[3], path, line_of(text, head.start(3)), clauses)


def definitions_in(files):
    """The definitions of specs/, and what `ghost NAME` of a trait or an impl says, as `OWNER.NAME`."""
    for path, text in files.items():
        if path.endswith(".antt"):
            yield from definitions_of_specs(path, text)
            continue
        text = without_comments(text, "//")
        owners = list(owners_in(text))
        for item in GHOST.finditer(text):
            owner = next((name for at, name in reversed(owners) if at < item.start()), "")
            said = text[item.start() : end_of_braces(text, item.end()) + 1]
            yield Definition(path.split("/")[1], f"{owner}.{item[1]}", path, line_of(text, item.start()), [], said.split("\n"))


def definitions_of_specs(path, text):
    """The definitions of one file, each with the comment right above it and all lines up to the next item."""
    name, start, comment, body, held = None, 0, [], [], []
    for number, line in enumerate([*without_modules(text.split("\n")), "use"], 1):
        if line[:1].isspace() or not line or line.startswith("--"):
            held.append(line)
            continue
        defined = DEFINES.match(line)
        if name and not defined and line.startswith(f"{name} "):
            body += [*held, line]
        else:
            above = comment_at_end(held)
            if name:
                yield Definition(path.split("/")[1], name, path, start, comment, trimmed([*body, *held[: len(held) - len(above)]]))
            name, start, comment, body = (defined[1], number, above, [line]) if defined else (None, 0, [], [])
        held = []


def without_modules(lines):
    """The lines, in which what stands in `module _ (..) where` stands in the first column, like all else."""
    in_head = in_module = False
    for line in lines:
        if line and not line[0].isspace() and not line.startswith("--"):
            in_head, in_module = line.startswith("module "), False
        yield line.removeprefix("  ") if in_module else line
        if in_head and line.endswith(" where"):
            in_head, in_module = False, True


def comment_at_end(lines):
    """The lines of the comment that ends these lines."""
    at = len(lines)
    while at and lines[at - 1].startswith("-- ") and not lines[at - 1].startswith("-- --"):
        at -= 1
    return lines[at:]


def trimmed(lines):
    """The lines without empty ones and headings at the end."""
    while lines and (not lines[-1].strip() or lines[-1].startswith("--")):
        lines = lines[:-1]
    return lines


def code_of(definition):
    """The lines of a definition without comments and empty lines."""
    return [line for line in definition.body if line.strip() and not line.lstrip().startswith("--")]


def members_of(definition):
    """The members of a record, or the constructors of a data type, by name."""
    return [found[1] for line in definition.body if (found := MEMBER.match(line))]


def numbers_in(files):
    """The constants whose value is a number that their line tells, by name; none that has two values."""
    found = {}
    for path, text in files.items():
        for name, number in NUMBER.findall(text) if path.endswith(".rt") else []:
            found.setdefault(name, set()).add(number.replace("_", ""))
    return {name: numbers.pop() for name, numbers in found.items() if len(numbers) == 1}


class Names:
    """Which definition a name means, by the `use` lines of the file that it stands in. A type that the code declares counts
    as one, too; what the kit's libraries define doesn't."""

    def __init__(self, files):
        self.files, self.used, self.defined = files, {}, {}
        for path, text in files.items():
            names = self.used[path] = {}
            for module, listed in USE.findall(text):
                names.update((name.strip().strip("◌"), module.split(".")) for name in listed.split(","))
        for it in definitions_in(files):
            self.defined.setdefault(it.file, {}).setdefault(it.name.strip("◌"), it)

    def find(self, file, name):
        """The definition that this name has in this file, or None if it is no definition of this repository."""
        while name not in self.defined.get(file, {}):
            crate, _, *module = self.used.get(file, {}).get(name, ["", ""])
            if module[:1] == ["declared"]:
                return self.declared(crate, module[1:])
            if not module:
                return None
            file = f"crates/{crate}/specs/{'/'.join(module)}.antt"
        return self.defined[file][name]

    def declared(self, crate, module):
        """The type that the code declares in this module; its variants are a module of its own."""
        path, name = module[: -1 - (module[-1] == "TheVariants")], module[-1 - (module[-1] == "TheVariants")]
        for file in (f"crates/{crate}/src/{'/'.join(path) or 'lib'}.rt", f"crates/{crate}/src/main.rt"):
            text = self.files.get(file, "")
            if head := re.search(rf"(?m)^pub (?:enum|struct) {name}\b[^{{;]*(\{{|;)", text):
                end = end_of_braces(text, head.end()) + 1 if head[1] == "{" else head.end()
                above = text[: head.start()].rstrip("\n").split("\n")
                at = len(above)
                while at and re.match(r"///|#\[", above[at - 1]):
                    at -= 1
                comment = [line for line in above[at:] if line.startswith("///")]
                return Definition(crate, name, file, line_of(text, head.start()), comment, text[head.start() : end].split("\n"))
        return None

    def cited(self, file, text):
        """The definitions that this text, of this file, names, in their order."""
        found = (self.find(file, name) for name in NAME.findall(STRING.sub("", text)))
        return list(dict.fromkeys((it.file, it.name) for it in found if it))

    def below(self, starts):
        """These definitions, by file and name, and all that they stand on, each before what it names first."""
        found, left = {}, list(reversed(starts))
        while left:
            file, name = left.pop()
            if (file, name) not in found:
                it = found[file, name] = self.item(file, name)
                if file.endswith(".antt"):
                    left += reversed(self.cited(file, " ".join(code_of(it))))
        return list(found.values())

    def item(self, file, name):
        """The definition or the type of this name in its own file."""
        it = self.defined.get(file, {}).get(name.strip("◌"))
        crate, _, *path = os.path.splitext(file)[0].split("/")[1:]
        return it or self.declared(crate, [*([] if path in (["lib"], ["main"]) else path), name])
