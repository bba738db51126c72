"""Reads mutants: wrong edits of a crate's code, each of which the prover has to refuse.

usage: scripts/mutants.py CRATE/NAME FOLDER     plants one in FOLDER, a copy of the crate's folder

The mutants of a crate are in bugs/CRATE.edits, and those of the gate in crates/CRATE/must-fail/NAME.edit. A line '# NAME' starts a
mutant of an .edits file. Its other lines are 'fn: PATH', a function that is to be refused, named as `rt check` names it without its
crate; 'file: PATH', a file of the crate, in src/, or in specs/ where each function is one of a module or of the crate `laws`, which does nothing; 'old: TEXT',
a text that this file has once, or else that the first function has once; and 'new: TEXT', what replaces it. A mutant has
one function or several, and one replacement or several; a later one sees what the earlier ones made. A mutant of the gate has no
function.
"""
import dataclasses
import difflib
import functools
import pathlib
import re
import sys

ROOT = pathlib.Path(__file__).resolve().parent.parent
FUNCTION = re.compile(r'(\s*)(?:pub(?:\([^)]*\))? )?(?:final )?(?:const )?(?:extern "C" )?fn (\w+)')


class Fault(Exception):
    """What is wrong with an edit or a crate, for a reader."""


@dataclasses.dataclass(frozen=True)
class Edit:
    """A mutant as a file states it: its functions, and its replacements as (file, old text, new text)."""

    name: str
    functions: tuple
    replacements: tuple

    def applied(self, folder):
        """The text of each file that it names, before and after it."""
        before = {path: source(folder, path) for path, _, _ in self.replacements}
        after = dict(before)
        for path, old, new in self.replacements:
            text = after[path]
            start, end = (0, len(text)) if text.count(old) == 1 or not self.functions else span(text, self.functions[0].rpartition("::")[2])
            count = text.count(old, start, end)
            if count != 1:
                raise Fault(f"an 'old:' text stands in {path} {count} times, and not once: {old.strip()}")
            after[path] = text[:start] + text[start:end].replace(old, new) + text[end:]
        return before, after


def span(text, name):
    """Where the one function of this name begins and ends in a file; the whole file if it has several, or none. The layout is that of `rt fmt`."""
    found = list(re.finditer(rf"^( *)(?:pub(?:\([^)]*\))? )?fn {name}\b.*?^\1}}\n", text, re.MULTILINE | re.DOTALL))
    return found[0].span() if len(found) == 1 else (0, len(text))


def source(folder, path):
    if not path.startswith(("src/", "specs/")):
        raise Fault(f"{path} is not below src/ or specs/")
    if not (folder / path).is_file():
        raise Fault(f"there is no file {path}")
    return (folder / path).read_text()


def read_edit(crate, name, lines):
    """The edit of a crate that numbered lines state."""
    functions, replacements, path, old = [], [], None, None
    for number, line in lines:
        word, _, text = line.partition(":")
        text = text.removeprefix(" ")
        if word == "fn":
            functions.append(text.strip())
        elif word == "file" and old is None:
            path = text.strip()
        elif word == "old" and path and old is None and text:
            old = text
        elif word == "new" and old is not None:
            replacements.append((path, old, text))
            old = None
        elif line.strip():
            raise Fault(f"line {number} is not one of 'fn:', 'file:', 'old:' and 'new:', in this order")
    if not replacements or old is not None:
        raise Fault("it has no 'old:' line with a 'new:' line" if old is None else "its last 'old:' line has no 'new:' line")
    are_laws = functions and (crate == "laws" or all(it.startswith("laws::") for it in functions))
    if any(it.startswith("specs/") for it, _, _ in replacements) and not are_laws:
        raise Fault("it is of a definition, and not of laws alone: only an edit of code shows what a contract is worth")
    return Edit(name, tuple(functions), tuple(replacements))


def blocks(file):
    """The numbered lines of each mutant of an .edits file, by its name."""
    found, name = {}, None
    for number, line in enumerate(file.read_text().splitlines(), 1):
        if line.startswith("#"):
            name = line[1:].strip()
            if not re.fullmatch(r"\w+", name) or name in found:
                raise Fault(f"{file.relative_to(ROOT)}:{number}: {line!r} is no new name of a mutant")
            found[name] = []
        elif name is not None:
            found[name].append((number, line))
        elif line.strip():
            raise Fault(f"{file.relative_to(ROOT)}:{number}: there is no line '# NAME' above")
    return found


def find_edit(crate, name):
    """A mutant of the gate or of bugs/, by its name."""
    gate, file = ROOT / "crates" / crate / "must-fail" / f"{name}.edit", ROOT / "bugs" / f"{crate}.edits"
    if gate.is_file():
        return read_edit(crate, name, list(enumerate(gate.read_text().splitlines(), 1)))
    lines = blocks(file).get(name) if file.is_file() else None
    if lines is None:
        raise Fault(f"{crate}/{name}: no such mutant in bugs/{crate}.edits or crates/{crate}/must-fail/")
    return read_edit(crate, name, lines)


def enclosing(lines, place):
    """The name of the function of a line, counted from 0; none between functions. The layout is that of `rt fmt`."""
    for at in range(place, -1, -1):
        found = FUNCTION.match(lines[at])
        if found:
            return None if found[1] + "}\n" in lines[at:place] else found[2]
    return None


@functools.cache
def declared(folder):
    """The names of a crate's functions, and the words of each head of an impl or a trait."""
    text = "".join(it.read_text() for it in folder.glob("src/**/*.rt"))
    heads = re.findall(r"^ *(?:pub(?:\([^)]*\))? )?(?:final )?(?:impl|trait)\b(.*?)\{", text, re.MULTILINE | re.DOTALL)
    return {*re.findall(r"\bfn (\w+)", text)}, [{"Any", *re.findall(r"\w+", it)} for it in heads]


def is_declared(folder, function):
    """Whether a crate has a function of this name. An impl's is named by its type and trait: `OwnerLockedCall::perform`, and if it is of any type
    `AnyRoundClock::moment`."""
    names, heads = declared(folder)
    *modules, last = function.split("::")
    owner = modules[-1] if modules and modules[-1][0].isupper() else ""
    return last in names and (not owner or any(re.fullmatch(f"(?:{'|'.join(it)})+", owner) for it in heads))


@dataclasses.dataclass(frozen=True)
class Change:
    """The lines of a file from `start` up to `end`, counted from 0, and their text in the mutant."""

    file: str
    start: int
    end: int
    lines: tuple


class Mutant:
    """A mutant of a crate in a folder: the functions to be refused, and the lines that it changes."""

    def __init__(self, edit, folder):
        if not edit.functions:
            raise Fault("it has no 'fn:' line")
        if unknown := [it for it in edit.functions if not is_declared(folder, it)]:
            raise Fault(f"the crate has no function {unknown[0]}")
        self.name, self.functions, self.changes, self.is_inside = edit.name, edit.functions, [], True
        self.is_of_definitions = any(path.startswith("specs/") for path, _, _ in edit.replacements)
        before, after = edit.applied(folder)
        for path, text in before.items():
            self.compare(path, text.splitlines(True), after[path].splitlines(True))
        if not self.changes:
            raise Fault("it changes nothing")

    def compare(self, path, before, after):
        names = {it.rpartition("::")[2] for it in self.functions}
        for kind, start, end, first, last in difflib.SequenceMatcher(None, before, after, autojunk=False).get_opcodes():
            if kind != "equal":
                self.changes.append(Change(path, start, end, tuple(after[first:last])))
                self.is_inside &= all(enclosing(before, at) in names for at in range(start, max(end, start + 1)))

    def meets(self, other):
        """Whether the two cannot go into one check."""
        return (
            not (self.is_inside and other.is_inside)
            or bool({*self.functions} & {*other.functions})
            or any(a.file == b.file and a.start <= b.end and b.start <= a.end for a in self.changes for b in other.changes)
        )

    def changes_function(self, path, name):
        """Whether it changes a function of this file and this last name."""
        return any(it.file == path for it in self.changes) and name in {it.rpartition("::")[2] for it in self.functions}


def main():
    if len(sys.argv) != 3 or "/" not in sys.argv[1]:
        sys.exit("usage: scripts/mutants.py CRATE/NAME FOLDER")
    crate, _, name = sys.argv[1].partition("/")
    folder = pathlib.Path(sys.argv[2])
    try:
        _, after = find_edit(crate, name).applied(folder)
    except Fault as it:
        sys.exit(f"mutants: {it}")
    for path, text in after.items():
        (folder / path).write_text(text)


if __name__ == "__main__":
    main()
