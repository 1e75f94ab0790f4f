#!/usr/bin/env python3
"""Lists the definitions that the main theorem unfolds to, from the sources.

    unfolded.py            writes the list into docs/PROOFS.md, between its two marker lines
    unfolded.py --check    compares: status 1 if docs/PROOFS.md has another list
    unfolded.py --names    prints the names, by crate and file

The theorem is `IsAnalysed` and `IsAnalysedBy` of crates/cw_cli/specs/Analyses.antt. From there the script follows names: each name
in the text of a definition refers to a definition of the same file, or of the file that a `use` line names. A constructor refers
to its type. A name of `declared` refers to a type or a constant of the code, and a type to the types of its fields. The kit's own
definitions are not listed. The list may have a definition too many (if a local name is also the name of a definition), but never one
too few.
"""
import collections
import functools
import os
import re
import sys

TOP = os.path.normpath(os.path.join(os.path.dirname(os.path.abspath(__file__)), ".."))
PAGE = os.path.join(TOP, "docs", "PROOFS.md")
FIRST, LAST = "<!-- definitions: written by bench/unfolded.py -->", "<!-- end of the definitions -->"
ROOTS = [("cw_cli", "specs/Analyses.antt", "IsAnalysed"), ("cw_cli", "specs/Analyses.antt", "IsAnalysedBy")]
START = re.compile(r"^( *)(?:(abbrev|unfoldable|record|data)(?: pub)?|pub (record|data)|pub) ([^\s(){}:]+)")
WORD = re.compile(r"[^\s(){};,]+")


class File:
    """A file of specs: its definitions with their texts, the definition of each constructor, and the names that it imports."""

    def __init__(self, crate, path):
        self.crate, self.path = crate, path
        self.definitions, self.owners, self.imports, self.modules = {}, {}, {}, {}
        with open(os.path.join(TOP, "crates", crate, path), encoding="utf-8") as file:
            self.read([line.split("--")[0].rstrip() if re.match(r"^ *--", line) else line.rstrip("\n") for line in file])

    def read(self, lines):
        name, parameters, mutual = None, [], None
        for line in lines:
            if not line.strip():
                continue
            indent = len(line) - len(line.lstrip())
            if line.startswith(("use ", "pub use ")):
                self.add_import(line)
            elif re.match(r"^ *(abbrev |unfoldable )?mutual\b", line):
                mutual, name = indent, None
            elif found := re.match(r"^ *module _(.*) where", line):
                parameters = [it for it in parameters if it[0] < indent] + [(indent, found[1])]
                name = None
            else:
                name = self.begun(line, indent, mutual, name)
                if name:
                    if name not in self.definitions:
                        self.definitions[name] = ["".join(text for at, text in parameters if at < indent), indent]
                    self.definitions[name].append(line)
        for name, (_, indent, *text) in self.definitions.items():
            self.add_constructors(name, indent, text)

    def begun(self, line, indent, mutual, name):
        """Returns the definition that a line belongs to."""
        found = START.match(line)
        if not found or found[4] in ("mod", "use"):
            return name
        kind = found[2] or found[3]
        inside = name is not None and indent > self.definitions[name][1]
        # `pub NAME :` is a field, unless it is a member of a mutual definition
        if not kind and (mutual is None or inside):
            return name
        return found[4]

    def add_import(self, line):
        module, _, names = re.sub(r"^(pub )?use ", "", line).partition(".{")
        if names:
            for it in names.rstrip("}").split(","):
                name, _, other = it.strip().partition(" as ")
                self.imports[other or name] = (module, name)
        elif " as " in module:
            module, _, alias = module.partition(" as ")
            self.modules[alias.strip()] = module.strip()
        else:
            module, _, name = module.strip().rpartition(".")
            self.imports[name] = (module, name)

    def add_constructors(self, name, indent, text):
        if not re.match(r"^ *(pub )?data\b", text[0]):
            return
        for line in text[1:]:
            if found := re.match(r"^ +([^\s(){}:]+) :", line):
                self.owners[found[1]] = name


@functools.lru_cache(None)
def load(crate, path):
    return File(crate, path)


def file_of(module):
    """Returns the crate and the path of a module of specs, or None for a module of the kit."""
    found = re.match(r"Rattle\.(\w+)\.(specs\..+)$", module)
    if not found or not os.path.isdir(os.path.join(TOP, "crates", found[1])):
        return None
    if found[2].startswith("specs.declared."):
        return found[1], found[2]
    return found[1], found[2].replace(".", "/") + ".antt"


def source_of(crate, module):
    """Returns the file of the code that declares a type or a constant, for its module below `declared`."""
    parts = [it for it in module.removeprefix("specs.declared.").split(".") if not it.startswith("The")]
    while parts:
        path = "src/%s.rt" % "/".join(parts)
        if os.path.isfile(os.path.join(TOP, "crates", crate, path)):
            return path
        parts.pop()
    return "src/lib.rt"


def declared(crate, module, name):
    """Returns the item of the code that a name of a module below `declared` refers to: the type of a variant, else itself."""
    parts = module.removeprefix("specs.declared.").split(".")
    owner = parts[-2] if parts[-1] == "TheVariants" else name if parts[-1] == "TheConstants" else parts[-1]
    return crate, source_of(crate, module), owner


def target(module, name, seen=()):
    """Returns what a name of a module refers to: a crate, a file and a definition, or None."""
    at = file_of(module)
    if at is None:
        return None
    crate, path = at
    if path.startswith("specs.declared."):
        return declared(crate, path, name)
    if not os.path.isfile(os.path.join(TOP, "crates", crate, path)):
        return None
    file = load(crate, path)
    if name in file.definitions or name in file.owners:
        return crate, path, name if name in file.definitions else file.owners[name]
    if name in file.imports and (module, name) not in seen:
        return target(*file.imports[name], (*seen, (module, name)))
    return None


def resolve(file, word):
    """Returns what a word in a definition of a file refers to, or None."""
    head, dot, rest = word.partition(".")
    if dot and head in file.modules:
        return target(file.modules[head], rest.split(".")[0])
    name = word if word in file.definitions or word in file.owners or word in file.imports else head
    if name in file.definitions or name in file.owners:
        return file.crate, file.path, name if name in file.definitions else file.owners[name]
    return target(*file.imports[name]) if name in file.imports else None


def operators(file):
    """Returns the operators that a file defines or imports, as their words."""
    names = [it for it in [*file.definitions, *file.imports] if "◌" in it]
    return [(it, [part for part in it.split("◌") if part]) for it in names]


def uses(crate, path, name):
    """Returns what a definition refers to."""
    if path.startswith("src/"):
        return items_of(crate, path, name)
    file = load(crate, path)
    around, _, *text = file.definitions[name]
    words = set(WORD.findall("\n".join([around, *text])))
    found = {resolve(file, it) for it in words}
    # `do` uses the operator that joins its lines
    found |= {resolve(file, it) for it, parts in operators(file) if set(parts) <= words or "do" in words and it == "◌>>=◌"}
    return found - {None, (crate, path, name)}


@functools.lru_cache(None)
def code_of(crate, path):
    with open(os.path.join(TOP, "crates", crate, path), encoding="utf-8") as file:
        return file.read()


def items_of(crate, path, name):
    """Returns the types of this repository that a type of the code has in its fields, and what its view names."""
    code = code_of(crate, path)
    body = re.search(r"^pub (?:struct|enum) %s\b.*?^\}|^pub struct %s\b.*?;$" % (name, name), code, re.M | re.S)
    if not body:
        return set()
    words = set(re.findall(r"\b[A-Z]\w+", re.sub(r"//.*", "", body[0]))) - {name}
    imported = {}
    for module, names, one in re.findall(r"^use ([\w:]+?)::(?:\{([^}]*)\}|(\w+));", code, re.M):
        imported.update({it.strip(): module for it in (names or one).split(",")})
    found = set()
    for word in words:
        if re.search(r"^pub (struct|enum) %s\b" % word, code, re.M):
            found.add((crate, path, word))
        elif module := imported.get(word):
            head, _, rest = module.partition("::")
            owner = crate if head == "crate" else head
            if at := declares(owner, word):
                found.add((owner, at, word))
    return found


@functools.lru_cache(None)
def declares(crate, name):
    """Returns the file of a crate's code that declares a type, or None if it is no crate of this repository."""
    folder = os.path.join(TOP, "crates", crate, "src")
    for at, _, names in os.walk(folder):
        for it in sorted(names):
            path = os.path.relpath(os.path.join(at, it), os.path.join(TOP, "crates", crate))
            if it.endswith(".rt") and re.search(r"^pub (struct|enum) %s\b" % name, code_of(crate, path), re.M):
                return path
    return None


def closure():
    """Returns the definitions that the theorem unfolds to: the names of each file of each crate."""
    found, todo = set(ROOTS), list(ROOTS)
    while todo:
        for it in sorted(uses(*todo.pop()) - found):
            found.add(it)
            todo.append(it)
    groups = collections.defaultdict(lambda: collections.defaultdict(list))
    for crate, path, name in sorted(found):
        groups[crate][path].append(name)
    return groups


def order():
    """Returns the crates, the lowest first."""
    with open(os.path.join(TOP, "crates.txt"), encoding="utf-8") as file:
        return [line.split(":")[0].split()[0] for line in file if line.strip() and not line.startswith("#")]


def short(path):
    return path.removeprefix("specs/").removesuffix(".antt")


def table(groups):
    """Returns the lines of the list, from the highest crate to the lowest."""
    total = sum(len(names) for files in groups.values() for names in files.values())
    lines = ["%d definitions in %d files:" % (total, sum(map(len, groups.values()))), "", "| crate | file | definitions |", "|---|---|---|"]
    for crate in reversed([it for it in order() if it in groups]):
        for path, names in groups[crate].items():
            lines.append("| `%s` | %s | `%s` |" % (crate, short(path), " ".join(names)))
    return lines


def main():
    groups = closure()
    if "--names" in sys.argv:
        for crate, files in groups.items():
            for path, names in files.items():
                print("%s/%s: %s" % (crate, path, " ".join(names)))
        return 0
    with open(PAGE, encoding="utf-8") as file:
        before, _, rest = file.read().partition(FIRST + "\n")
    old, last, after = rest.partition(LAST)
    if not last:
        sys.exit("docs/PROOFS.md has no lines that mark the list of definitions")
    new = "\n".join(table(groups)) + "\n"
    if "--check" in sys.argv:
        print("docs/PROOFS.md %s the list of definitions" % ("has" if old == new else "does not have"))
        return int(old != new)
    with open(PAGE, "w", encoding="utf-8") as file:
        file.write(before + FIRST + "\n" + new + LAST + after)
    return 0


if __name__ == "__main__":
    sys.exit(main())
