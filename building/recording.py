"""Records the proved program: the sums of the program and its sources, and the parts of its module that no rule predicts."""
import pathlib
import tempfile

import comparing
import hints
import modules
import offsets
import proving
import records
import rewriting

HINTS = frozenset(hints.ATTRIBUTES.values())


def rewritten(kit, trial, top, exceptions):
    """Returns the functions and declarations of a trial's module as ./build rewrites it."""
    work = rewriting.Rewriting(kit, hints.Hints(kit, top, exceptions.hints), exceptions)
    lines = (line for text in work.text(modules.items_of(modules.text_of(kit, trial))) for line in text.splitlines(True))
    return comparing.functions_of(lines)


def hints_of(function):
    """Returns the hints of a function in the order of the alphabet."""
    return " ".join(sorted(function.attributes & HINTS))


def unpredicted_hints(mine, proved):
    """Returns the proved hints of the functions for which the rules predict others, by the name without type arguments if all instances agree."""
    instances, found = {}, {}
    for name, it in proved.items():
        instances.setdefault(modules.generic(name), set()).add(hints_of(it))
    for name in (it for it in mine if it in proved and hints_of(mine[it]) != hints_of(proved[it])):
        general = modules.generic(name)
        found[general if len(instances[general]) == 1 else name] = hints_of(proved[name])
    return found


def unpredicted_offsets(mine, proved):
    """Returns the numbers of the offsets of each function on which the flags are not as the rule predicts."""
    found = {}
    for name in (it for it in mine if it in proved and it != "main"):
        one, two = [[offsets.FLAGS in line for line in it[name].lines if offsets.OFFSET.match(line)] for it in (mine, proved)]
        wrong = {number for number, (first, second) in enumerate(zip(one, two)) if first != second}
        if wrong and len(one) == len(two):
            found[name] = wrong
    return found


def compare(kit, folder, top, proved_top, exceptions):
    """Returns the module that ./build makes of the sources at `top`, and the proved one of the copy at `proved_top`, as functions."""
    trial = modules.of_trial(kit, folder / "trial", top)
    proof = modules.of_proof(kit, folder / "proof", proved_top)
    return trial, rewritten(kit, trial, top, exceptions), comparing.functions_of(modules.text_of(kit, proof))


def differences(kit, say):
    """Proves the program, which is quick after a full check, and returns a report of the differences from the program of ./build."""
    with tempfile.TemporaryDirectory(prefix="cilkwork-compare-") as name:
        folder = pathlib.Path(name)
        proved_top = proving.prove(kit, records.TOP, folder / "top", say)
        _, mine, proved = compare(kit, folder, records.TOP, proved_top, records.exceptions())
        return comparing.report(list(comparing.differences(mine, proved)))


def record(kit, sources, say):
    """Proves the program and writes building/PROVED and building/EXCEPTIONS. Returns the exit status: 1 if ./build still makes another program."""
    with tempfile.TemporaryDirectory(prefix="cilkwork-record-") as name:
        folder = pathlib.Path(name)
        proved_top = proving.prove(kit, records.TOP, folder / "top", say)
        made = records.sum_of_file(proved_top / proving.PROGRAM)
        say("comparing the proved module with the one of ./build: two minutes")
        trial, mine, proved = compare(kit, folder, records.TOP, proved_top, records.Exceptions())
        found = records.Exceptions(unpredicted_hints(mine[0], proved[0]), unpredicted_offsets(mine[0], proved[0]))
        left = list(comparing.differences(rewritten(kit, trial, records.TOP, found), proved))
    records.write_exceptions(found)
    records.write_proved(records.Proved(kit.line, sources, made))
    say(f"building/PROVED has the proved program now: SHA-256 {made}")
    say(f"building/EXCEPTIONS has {len(found.hints)} names with other hints, and {len(found.offsets)} functions with other offsets")
    if left:
        print("\n".join(comparing.report(left)))
        say("a rule in building/ must be extended before ./build makes this program (docs/DEVELOPING.md)")
    return 1 if left else 0
