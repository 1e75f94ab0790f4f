"""Hints on inlining: the attributes that the kit gives to each function.

The kit's libraries list their hints by the full name of each function, without type arguments. This module names the functions of
the sources in the same way: a function by its module, an inherent method by the module of its type, a trait's default method by the
module of the trait, and a method of an `impl` of a trait by the module of the `impl` and the names of type and trait joined.

The kit drops `inline(always)` from a function that would grow very large with everything that is inlined into it. Its limit is unknown, so
`./build --record` takes these functions, and what else is named otherwise, from the proved module (records.py).
"""
import pathlib
import re

import modules

# the attribute of each hint, by the hint's name in the `format` files
ATTRIBUTES = {"inline": "inlinehint", "inline-always": "alwaysinline", "inline-never": "noinline", "cold": "cold"}
# and by the words of the attribute in the sources
WRITTEN = {"inline": "inlinehint", "inline(always)": "alwaysinline", "inline(never)": "noinline", "cold": "cold"}
# the function in which the kit emits `pause`, and which it marks as if its source had the attribute
PAUSES = "core::hint::spin_loop"
ITEM = re.compile(
    r"#\[(?P<hint>inline|inline\(\w+\)|cold)\]|#\[[^\]]*\]|\bfn\s+(?P<fn>\w+)|\b(?:struct|enum)\s+(?P<type>\w+)|\b(?P<kind>mod|trait)\s+(?P<scope>\w+)"
    r"|(?m:^)[ \t]*(?:unsafe\s+)?impl\b(?P<impl>(?:\[[^\]]*\]|[^{;])*)|(?P<mark>[{};])"
)


def spelled(text, parameters):
    """Returns how the kit spells a type in a name: `&[u64]` is RefSliceU64. Type parameters and lifetimes are left out."""
    text = re.sub(r"'\w+\s*,?\s*|\bdyn\b|\s", "", re.sub(r"&\s*(?:'\w+\s*)?mut\b", "&*", text))
    if text.startswith("&"):
        return ("RefMut" if text.startswith("&*") else "Ref") + spelled(text.lstrip("&*"), parameters)
    if text.startswith("["):
        element, _, length = text[1:-1].partition(";")
        return ("Array" if length else "Slice") + spelled(element, parameters) + length
    if text.startswith("("):
        parts = [it for it in split(text[1:-1]) if it]
        return (f"Tuple{len(parts)}" if parts else "Unit") + "".join(spelled(it, parameters) for it in parts)
    head, _, arguments = text.partition("<")
    name = head.rpartition("::")[2]
    return "" if name in parameters else name[:1].upper() + name[1:] + "".join(spelled(it, parameters) for it in split(arguments[:-1]))


def split(text):
    """Splits a list of types at its outermost commas."""
    parts, depth = [""], 0
    for it in text:
        depth += (it in "<[(") - (it in ">])")
        if it == "," and not depth:
            parts.append("")
        else:
            parts[-1] += it
    return [it for it in parts if it]


def parameters_of(text):
    """Splits what follows `impl` into the names of its type parameters and the rest."""
    if not text.startswith("<"):
        return set(), text
    depth = end = 0
    for end, it in enumerate(text):
        depth += (it == "<") - (it == ">" and text[end - 1] != "-")
        if not depth:
            break
    return {re.match(r"(?:const\s+)?(\w+)", it)[1] for it in split(text[1:end].replace(" ", "")) if it[0] != "'"}, text[end + 1 :]


def types_of(files):
    """Returns the modules in which each type of a crate is declared, by the type's name."""
    found = {}
    for module, text in files:
        for scope, name, kind, _ in items_of(module, text, {}):
            if kind == "type":
                found.setdefault(name, []).append(scope)
    return found


def scope_of_impl(text, module, types):
    """Returns the name that begins the names of the methods of an `impl`."""
    parameters, rest = parameters_of(text.strip())
    trait, is_of_trait, of = re.sub(r"\bwhere\b.*", "", rest, flags=re.S).strip().rpartition(" for ")
    if is_of_trait:
        return f"{module}::{spelled(of, parameters)}{spelled(trait, parameters)}"
    name = re.match(r"(?:\w+::)*(\w+)", of.strip())
    places = types.get(name[1], [module]) if name else [module]
    return f"{module if module in places else places[0]}::{name[1] if name else ''}"


def items_of(module, text, types):
    """Yields each type and function of a source: the scope that its name begins with, its name, its kind and its hints."""
    scopes, begins, hints = [module], None, []
    for item in ITEM.finditer(text):
        if item["hint"]:
            hints.append(WRITTEN.get(item["hint"], ""))
        elif item["type"]:
            yield scopes[-1], item["type"], "type", ()
            hints = []
        elif item["fn"]:
            yield scopes[-1], item["fn"], "fn", tuple(hints)
            hints, begins = [], scopes[-1]
        elif item["scope"]:
            begins, hints = f"{scopes[-1]}::{item['scope']}", []
        elif item["impl"] is not None:
            begins, hints = scope_of_impl(item["impl"], scopes[-1], types), []
        elif item["mark"] == "{":
            scopes.append(begins or scopes[-1])
            begins = None
        elif item["mark"] == "}" and len(scopes) > 1:
            scopes.pop()
            begins = None
        elif item["mark"] == ";":
            begins = None


def sources_of(crate, rtlib):
    """Returns the module and the text, without comments and strings, of each source of a crate."""
    found = []
    for file, text in sorted(rtlib.blanked(crate.folder).items()):
        names = pathlib.PurePath(file).relative_to(crate.folder).with_suffix("").parts
        if file.endswith(".rt") and names[0] == "src":
            found.append(("::".join([crate.name, *(it for it in names[1:] if it not in ("lib", "main", "mod"))]), text))
    return found


def of_sources(crates, rtlib):
    """Yields the full name and an attribute of each function of the crates that has a hint."""
    for crate in crates:
        files = sources_of(crate, rtlib)
        types = types_of(files)
        for module, text in files:
            for scope, name, _, hints in items_of(module, text, types):
                yield from ((f"{scope}::{name}", it) for it in hints if it)


def of_libraries(kit):
    """Yields the full name and an attribute of each function of the kit's libraries that has a hint."""
    for text in kit.formats():
        for hint, name in re.findall(r"(?m)^(cold|inline(?:-\w+)?) (.+)$", text):
            yield name, ATTRIBUTES[hint]
    yield PAUSES, "inlinehint"


class Hints:
    """The attributes of each function by its hints and the recorded exceptions."""

    def __init__(self, kit, top, exceptions):
        self.exceptions, self.found = exceptions, {}
        for name, attribute in [*of_libraries(kit), *of_sources(kit.crates(top), kit.rtlib())]:
            self.found.setdefault(name, set()).add(attribute)

    def of(self, name):
        """Returns the attributes of a function, whose name may have type arguments, in the order of the alphabet."""
        general = modules.generic(name)
        recorded = self.exceptions.get(name, self.exceptions.get(general))
        return " ".join(sorted(self.found.get(general, ()))) if recorded is None else recorded
