"""Installs the program with its documents, examples and completions into a folder such as ~/.local."""
import os
import pathlib
import shutil

import records

DOCUMENTS = ["docs/GUIDE.md", "docs/LANGUAGE.md", "CHANGELOG.md"]


def put(file, to, mode=0o644):
    """Copies a file. An existing file, which may be a running program, is replaced in one step."""
    to.parent.mkdir(parents=True, exist_ok=True)
    made = to.with_name(to.name + ".new")
    shutil.copyfile(file, made)
    os.chmod(made, mode)
    os.replace(made, to)


def installed(program, prefix):
    """Copies the program, its manual page, completions, documents and examples below a folder, and returns the folder."""
    prefix = pathlib.Path(prefix).expanduser().absolute()
    put(program, prefix / "bin/cilkwork", 0o755)
    for file in sorted((records.TOP / "share").rglob("*")):
        if file.is_file():
            put(file, prefix / "share" / file.relative_to(records.TOP / "share"))
    place = prefix / "share/doc/cilkwork"
    for name in DOCUMENTS:
        put(records.TOP / name, place / pathlib.Path(name).name)
    # GUIDE.md and the folder of examples are in the same folder here
    guide = place / "GUIDE.md"
    guide.write_text(guide.read_text().replace("](../examples", "](examples"))
    for file in sorted((records.TOP / "examples").iterdir()):
        put(file, place / "examples" / file.name)
    return prefix
