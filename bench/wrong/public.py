"""Which functions a crate exports, and which mutants its public contracts refuse.

A function is public if it is `pub` and another crate can name it: its module is a `pub mod` of lib.rt or lib.rt re-exports it.
A method is public if its type is, and if it is `pub` or belongs to an impl of a trait. A program exports nothing.

A public contract refuses a mutant if the mutant is refused, the column `only` names a public function or a module with one,
and the mutant changes no other function: it changes the body of this function, or text outside of every function.
"""
import functools
import os
import re

TOP = os.path.normpath(os.path.join(os.path.dirname(os.path.abspath(__file__)), "..", ".."))
FUNCTION = re.compile(r"^( *)(pub(?:\([\w ]+\))? )?(?:unsafe )?fn (\w+)")
IMPL = re.compile(r"^impl\b(?:<.*?>)? (?:(?P<trait>[\w:]+)(?:<.*>)? for )?(?P<type>\w+)")


class Function:
    """A function of a crate: its path, its lines (from the first to the last one), and whether it is public."""

    def __init__(self, file, path, lines, is_public):
        self.file, self.path, self.lines, self.is_public = file, path, lines, is_public


def module_of(file):
    """Returns the path of the module that a file is."""
    path = file.removeprefix("src/").removesuffix(".rt").replace("/", "::").removesuffix("::mod")
    return "" if path in ("lib", "main") else path


@functools.lru_cache(None)
def sources(crate):
    """Returns the lines of each file of a crate's src by its name."""
    folder, found = os.path.join(TOP, "crates", crate), {}
    for at, _, names in os.walk(os.path.join(folder, "src")):
        for name in sorted(names):
            with open(os.path.join(at, name), encoding="utf-8") as file:
                found[os.path.relpath(os.path.join(at, name), folder)] = file.read().split("\n")
    return found


@functools.lru_cache(None)
def exports(crate):
    """Returns the public modules of a crate, and the items that its root re-exports, as MODULE::NAME."""
    root = "\n".join(sources(crate).get("src/lib.rt", []))
    modules = set(re.findall(r"^pub mod (\w+);", root, re.M))
    uses = re.findall(r"^pub use ([\w:]+?)(?:::\{([^}]*)\})?;", root, re.M)
    items = [module + "::" + it.strip() if names else module for module, names in uses for it in (names or module).split(",")]
    return modules, set(items)


def is_exported(crate, module, name):
    """Returns whether another crate can name an item of a module that is `pub` there."""
    modules, items = exports(crate)
    return module.split("::")[0] in modules or module + "::" + name in items


@functools.lru_cache(None)
def types(crate):
    """Returns the module of each type of a crate, and whether the type is `pub`."""
    found = {}
    for file, lines in sources(crate).items():
        for line in lines:
            if at := re.match(r"(pub(?:\([\w ]+\))? )?(?:struct|enum|trait) (\w+)", line):
                found[at[2]] = module_of(file), at[1] == "pub "
    return found


@functools.lru_cache(None)
def functions(crate):
    """Returns all functions of a crate."""
    found = []
    for file, lines in sources(crate).items():
        impl = None
        for number, line in enumerate(lines):
            impl = IMPL.match(line) or (None if line.startswith("}") else impl)
            if not (at := FUNCTION.match(line)):
                continue
            end = next((it for it in range(number, len(lines)) if re.match(at[1] + r"(\}|\{\}$)", lines[it])), len(lines))
            found.append(described(crate, file, impl, at, (number, end)))
    return found


def described(crate, file, impl, at, lines):
    """Returns the function that begins with these words, in this impl if there is one."""
    is_pub = at[2] == "pub "
    if not impl:
        module = module_of(file)
        return Function(file, "::".join(filter(None, [module, at[3]])), lines, is_pub and is_exported(crate, module, at[3]))
    module, is_type_pub = types(crate).get(impl["type"], (module_of(file), False))
    is_seen = is_type_pub and is_exported(crate, module, impl["type"])
    # the kit names a method of a trait by the type and the trait
    owner = impl["type"] + ("" if impl["trait"] in (None, "Drop") else impl["trait"].split("::")[-1])
    return Function(file, "::".join([module, owner, at[3]]), lines, is_seen and bool(is_pub or impl["trait"]))


def named(crate, path):
    """Returns the functions that a path of the column `only` names."""
    return [it for it in functions(crate) if it.path == path or it.path.startswith(path + "::")]


def surrounding(functions, file, at):
    """Returns those of these functions that a line of a file is in."""
    return [it for it in functions if it.file == file and it.lines[0] <= at <= it.lines[1]]


def places(row, file, lines, text):
    """Returns the numbers of the lines of a file that have a text: if several have it, those in functions of the column `only`."""
    found = [number for number, line in enumerate(lines) if text in line]
    mine = [it for path in row["only"].split() for it in named(row["crate"], path)]
    return found if len(found) == 1 else [at for at in found if surrounding(mine, file, at)]


def changed(row, pairs):
    """Returns the functions that a mutant changes, for its pairs of a file and a text to replace."""
    crate, found = row["crate"], []
    for file, old in pairs:
        for at in places(row, file, sources(crate).get(file, []), old):
            found += surrounding(functions(crate), file, at)
    return found


def is_refused_publicly(row, pairs):
    """Returns whether a public contract refuses the mutant of a row, by the rule above."""
    mine = [it for path in row["only"].split() for it in named(row["crate"], path)]
    others = [it for it in changed(row, pairs) if not it.is_public or it.path not in [that.path for that in mine]]
    return row["answer"] == "refused" and any(it.is_public for it in mine) and not others
