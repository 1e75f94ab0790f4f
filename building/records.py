"""Reads and writes the files of `./build --record`: the proved program, and the parts of its module that no rule predicts.

`building/PROVED` has a line for each kit: the kit, the sum of the sources, and the SHA-256 of the proved program.

`building/EXCEPTIONS` has a line for each difference between the proved module and the one that the rules of this folder make:

    hints NAME WORD..       the hints that a function has in the proved module, or none. NAME without type arguments means all instances
    offsets NAME NUMBER..   the pointer offsets of a function, counted from 0, on which `inbounds nuw` is not as the rule predicts

A tab ends each name, since names may have spaces.
"""
import dataclasses
import hashlib
import pathlib

TOP = pathlib.Path(__file__).resolve().parent.parent
PROVED = TOP / "building/PROVED"
EXCEPTIONS = TOP / "building/EXCEPTIONS"


@dataclasses.dataclass(frozen=True)
class Proved:
    """A program that was proved: the kit, the sum of its sources and its own SHA-256."""

    kit: str
    sources: str
    program: str


@dataclasses.dataclass
class Exceptions:
    """The exceptions from the rules: hints by the name of a function or of an instance, and numbers of offsets by instance."""

    hints: dict = dataclasses.field(default_factory=dict)
    offsets: dict = dataclasses.field(default_factory=dict)


def lines_of(file):
    """Returns the lines of a file that are neither empty nor a comment."""
    text = file.read_text() if file.exists() else ""
    return [line for line in text.splitlines() if line.strip() and not line.startswith("#")]


def proved():
    """Returns the programs that were proved, one for each kit."""
    return [Proved(kit, sources, program) for kit, sources, program in (line.rsplit(" ", 2) for line in lines_of(PROVED))]


def proved_from(sources, kit):
    """Returns the program that a kit, given by its identity, proved from the sources with this sum, or None."""
    return next((it for it in proved() if (it.kit, it.sources) == (kit, sources)), None)


def write_proved(new):
    """Records a proved program, and drops programs that other kits proved from other sources."""
    others = [it for it in proved() if it.kit != new.kit and it.sources == new.sources]
    lines = [f"{it.kit} {it.sources} {it.program}\n" for it in [*others, new]]
    PROVED.write_text("# KIT SOURCES PROGRAM, written by ./build --record\n" + "".join(lines))


def exceptions():
    """Returns the recorded exceptions."""
    found = Exceptions()
    for line in lines_of(EXCEPTIONS):
        kind, rest = line.split(" ", 1)
        name, values = rest.split("\t")
        if kind == "hints":
            found.hints[name] = values.replace("none", "")
        else:
            found.offsets[name] = {int(it) for it in values.split()}
    return found


def write_exceptions(new):
    """Records the exceptions."""
    lines = [f"hints {name}\t{words or 'none'}\n" for name, words in sorted(new.hints.items())]
    lines += [f"offsets {name}\t{' '.join(map(str, sorted(it)))}\n" for name, it in sorted(new.offsets.items())]
    EXCEPTIONS.write_text("# What no rule of building/ predicts (records.py), written by ./build --record\n" + "".join(lines))


def sum_of_sources(crates):
    """Returns a sum of the sources of these crates and of the libraries that each of them uses."""
    found = hashlib.sha256()
    for crate in crates:
        uses = [it.name for it in crate.deps] + list(crate.of_kit)
        found.update(f"{crate.name}: {' '.join(uses)}\n".encode())
        add_files(found, sorted(pathlib.Path(crate.folder, "src").rglob("*.rt")), pathlib.Path(crate.folder))
    return found.hexdigest()


def sum_of_building(kit):
    """Returns a sum of the kit and the files of building/, which make the program from the sources."""
    found = hashlib.sha256(f"{kit}\n".encode())
    add_files(found, [TOP / "build", EXCEPTIONS, PROVED, *sorted((TOP / "building").glob("*.py"))], TOP)
    return found.hexdigest()


def add_files(found, files, top):
    """Adds the names and the contents of files to a sum."""
    for file in files:
        text = file.read_bytes() if file.exists() else b""
        found.update(f"{file.relative_to(top)} {len(text)}\n".encode() + text)


def sum_of_file(file):
    """Returns the SHA-256 of a file."""
    return hashlib.sha256(pathlib.Path(file).read_bytes()).hexdigest()
