"""Reads the wrong machines that are edits, crates/CRATE/must-fail/*.edit.

A file is one check of its crate. It holds one machine, which bears the file's name; or several, each after a line
`machine: NAME`, and then each has to be refused at a fact of its own. A machine begins with a comment: what is right, and
what must not pass. Lines `file:`, `old:` and `new:` say what it changes. `false: FILE NAME` is the fact that is false of
it, with `later` at the end where facts that are true of it are refused before.
"""

import dataclasses
import pathlib

ROOT = pathlib.Path(__file__).resolve().parent.parent


@dataclasses.dataclass
class Machine:
    edit: pathlib.Path
    name: str
    text: str = ""
    changes: list[tuple[str, str, str]] = dataclasses.field(default_factory=list)
    facts: list[str] = dataclasses.field(default_factory=list)

    def __str__(self):
        return f"{self.edit.relative_to(ROOT)}: {self.name}"


def machines_of(edit):
    """The machines of one file."""
    lines = edit.read_text().splitlines()
    named = any(line.startswith("machine: ") for line in lines)
    found = [] if named else [Machine(edit, edit.stem)]
    file = old = None
    for line in lines:
        key, _, value = line.partition(": ")
        if key == "machine":
            found.append(Machine(edit, value))
            file = None
        elif key == "file":
            file = value
        elif key == "old":
            old = value
        elif line.startswith("new:"):
            found[-1].changes.append((file, old, line.removeprefix("new:").removeprefix(" ")))
        elif key == "false":
            found[-1].facts.append(value)
        elif line.startswith("#") and file is None:
            found[-1].text = f"{found[-1].text} {line.lstrip('#').strip()}".strip()
    return found


def edits(crate):
    """The machines of each file of a crate."""
    return [machines_of(edit) for edit in sorted((ROOT / "crates" / crate / "must-fail").glob("*.edit"))]


def crates():
    """The crates that have edits."""
    return sorted(path.parent.name for path in (ROOT / "crates").glob("*/must-fail"))
