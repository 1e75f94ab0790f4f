"""Sets `inbounds nuw` on the pointer offsets on which the kit sets it.

In the kit's intermediate code an offset is a pointer to an element of a slice or an array: it is kept in a variable of its own. The
kit sets the flags if the element is only read or written, and the variable is used for nothing else. A trial does so, too, but it also
tests the alignment of some pointers, and such a test is another use of the variable. This module sets the flags that are missing there.

An address of a field looks like an offset by a constant, and the kit does not set the flags on it. An offset by a constant is an
element with a literal index: a bounds test comes before it in the trial, with the index (bodies.py marks where).
"""
import re

from bodies import INDEX, REGISTER, SET

OFFSET = re.compile(r"  (%r\d+) = getelementptr (?:inbounds nuw )?i8, ptr (\S+), i64 (\S+)$")
PUT = re.compile(r"  store ptr (\S+), ptr (%r\d+), ")
TAKEN = re.compile(r"  (%r\d+) = load ptr, ptr (%r\d+), ")
FLAGS = "getelementptr inbounds nuw i8"


class Uses:
    """The lines that read each register of a function."""

    def __init__(self, blocks):
        self.lines = {}
        for line in (it for lines in blocks.values() for it in lines):
            for it in REGISTER.findall(line)[1 if SET.match(line) else 0 :]:
                self.lines.setdefault(it, []).append(line)

    def are_accesses(self, name):
        """Returns whether each use of a register reads or writes the memory that it points to, or a field of it."""
        access = rf"  (?:%r\d+ = load .*, ptr {name}, |store .*, ptr {name}, |call void @llvm\.mem\w+\.p0\S*\(.*ptr {name}[,)])"
        field = rf"  (%r\d+) = getelementptr i8, ptr {name}, i64 \d"
        return all(re.match(access, it) or (at := re.match(field, it)) and self.are_accesses(at[1]) for it in self.lines.get(name, ["-"]))

    def is_accessed(self, name, tested):
        """Returns whether an offset is put into a variable which the trial tested, and which is used only for accesses."""
        put = self.lines.get(name, [])
        into = PUT.match(put[0]) if len(put) == 1 else None
        if not into or into[2] not in tested:
            return False
        taken = [TAKEN.match(it) for it in self.lines[into[2]] if it != put[0]]
        return bool(taken) and all(it and self.are_accesses(it[1]) for it in taken)


def element(lines, copies):
    """Returns the number of the line with the offset of an element, in the lines after the tests of its indices, or None.

    The address of a field or an element that is an array is the base of further offsets: the last offset is the element's. The address of an array may be copied, once for each index but the last; another copy is a reference."""
    last = slot = None
    taken = set()
    for number, line in enumerate(lines):
        put, load = PUT.match(line), TAKEN.match(line)
        if INDEX.match(line) or " call " in line:
            break
        if (offset := OFFSET.match(line)) and (into := PUT.match(lines[number + 1])) and into[1] == offset[1]:
            if slot and offset[2] not in taken:
                break
            last, slot, taken = number, into[2], set()
        elif load and load[2] == slot:
            taken.add(load[1])
        elif put and put[1] in taken:
            if not copies:
                break
            copies, slot, taken = copies - 1, put[2], set()
    return last


def elements(lines):
    """Returns the numbers of the lines of a block that add the offset of an element: by a register, or by a literal index."""
    found = {number for number, line in enumerate(lines) if (it := OFFSET.match(line)) and it[3].startswith("%")}
    indices = []
    for number, line in enumerate(lines):
        if mark := INDEX.match(line):
            indices.append(mark[1])
            first = number + 1
        elif indices and PUT.match(line):
            at = element(lines[first:], len(indices) - 1) if indices[-1].isdigit() else None
            if at is not None and is_multiple(OFFSET.match(lines[first + at])[3], int(indices[-1])):
                found.add(first + at)
            indices = []
    return found


def is_multiple(offset, index):
    """Returns whether an offset is a literal that may belong to the element with this index."""
    return offset.isdigit() and (int(offset) % index == 0 if index else int(offset) == 0)


def with_flags(blocks, tested, exceptions=()):
    """Returns the blocks with the kit's flags. `exceptions` are the numbers of offsets for which the rule is wrong."""
    count, uses, flagged = 0, Uses(blocks), {}
    for label, lines in blocks.items():
        added = elements(lines)
        flagged[label] = []
        for number, line in enumerate(lines):
            if offset := OFFSET.match(line):
                has_flags = FLAGS in line or number in added and uses.is_accessed(offset[1], tested)
                line = re.sub(r"getelementptr (inbounds nuw )?i8", FLAGS if has_flags != (count in exceptions) else "getelementptr i8", line)
                count += 1
            if not INDEX.match(line):
                flagged[label].append(line)
    return flagged
