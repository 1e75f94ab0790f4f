"""Rewrites the module of a trial into the module that the kit makes after a proof.

A trial is what `rt try` compiles: no proofs, tests at run time. A trial adds tests and values that only they read (bodies.py). It omits
`inbounds nuw` on some pointer offsets (offsets.py), hints (hints.py), `pause`, the processor test (entry.py) and the name of the program
logic.
"""
import multiprocessing
import os

import bodies
import entry
import hints
import modules
import offsets

COMMON = 'nounwind "probe-stack"="inline-asm" "stack-probe-size"="3072" "target-cpu"='
PAUSE = "call void @llvm.x86.sse2.pause()"
# the number of the first attribute group that a rewritten module adds, and the number of functions that are rewritten at a time
FIRST_GROUP, BATCH = 901, 2000


def body(task):
    """Returns the text of a function as in a proved build, given its lines in a trial and its exceptions."""
    lines, exceptions = task
    if " @main(" in lines[0]:
        return entry.with_processor_test(lines)
    if f'@"{hints.PAUSES}"(' in lines[0]:
        lines[-2:-2] = [f"  {PAUSE}\n"]
    text = [lines[0]]
    for label, block in offsets.with_flags(*bodies.untested(lines), exceptions).items():
        text += [f"{label}:\n", *block]
    return "".join([*text, "}\n"])


class Rewriting:
    """Rewrites the items of one module; `attribute` is one more attribute for every function."""

    def __init__(self, kit, known, exceptions, attribute=""):
        self.logic, self.hints, self.exceptions, self.attribute = kit.logic(), known, exceptions, attribute
        self.groups = {}

    def head(self, line):
        """Returns the first line of a function with its attribute group."""
        name = modules.name_of(line)
        key = None if name == "main" else self.hints.of(name)
        return f"{line.rpartition(' #')[0]} #{self.groups.setdefault(key, FIRST_GROUP + len(self.groups))} {{\n"

    def plain(self, line):
        """Returns a line outside functions."""
        if line.startswith("attributes #"):
            return line.replace('"rattle-sig"="c0" ', "")
        return f'!0 = !{{!"rattle logic={self.logic}"}}\n' if line.startswith("!0 = ") else line

    def tasks(self, items):
        """Yields, for each item that is kept, its text if it is final, or the arguments of `body`."""
        for lines in items:
            if not lines[0].startswith("define "):
                yield self.plain(lines[0]), None
            elif '@"rattle-' not in lines[0]:
                numbers = self.exceptions.offsets.get(modules.name_of(lines[0]), ())
                lines[0] = self.head(lines[0])
                yield None, (lines, numbers)

    def tail(self):
        """Yields the attribute groups and the declarations that were added."""
        for key, number in self.groups.items():
            cpu = entry.CPU if key is None else f"{entry.CPU}-v2"
            yield f'attributes #{number} = {{ {key or ""} {self.attribute}{COMMON}"{cpu}" }}\n'
        yield entry.DECLARED + f"declare {PAUSE[5:]} #900\nattributes #900 = {{ nounwind }}\n"

    def text(self, items):
        """Yields the text of the rewritten module in pieces; several processes rewrite the bodies."""
        with multiprocessing.get_context("fork").Pool(min(len(os.sched_getaffinity(0)), 4)) as pool:
            batch = []
            for task in self.tasks(items):
                batch.append(task)
                if len(batch) == BATCH:
                    yield from rewritten(pool, batch)
                    batch = []
            yield from rewritten(pool, batch)
        yield from self.tail()


def rewritten(pool, batch):
    """Returns the texts of a batch of items in order."""
    bodies_of = iter(pool.map(body, [it for _, it in batch if it], chunksize=50))
    return [text if task is None else next(bodies_of) for text, task in batch]
