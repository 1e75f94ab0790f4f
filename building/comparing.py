"""Compares two modules function by function: the module that ./build makes from the sources, and the module of the kit after the proof.

The names of registers and blocks do not matter, nor does dead code, which the modules may have in different amounts.
"""
import dataclasses
import difflib
import re

import modules

NAME = re.compile(r'%(?:"[^"]*"|[\w.]+)|^([\w.]+):', re.M)
REGISTER = re.compile(r"%[\w.]+")
PURE = re.compile(r"  (%[\w.]+) = (?!call|alloca|atomicrmw|cmpxchg|load atomic|load volatile)")
# the lines of a difference that are shown, and the functions
LINES, FUNCTIONS = 30, 12


@dataclasses.dataclass
class Function:
    """A function of a module: the text before its attribute group, its attributes, and its lines."""

    head: str
    attributes: frozenset
    lines: list


def functions_of(lines):
    """Returns the functions of a module by their names, and its other lines that declare something."""
    found, groups, others, numbers = {}, {}, [], {}
    for item in modules.items_of(lines):
        if group := re.match(r"attributes #(\d+) = \{ *(.*?) *\}", item[0]):
            groups[group[1]] = frozenset(it for it in group[2].split() if "rattle-sig" not in it)
        elif not item[0].startswith("define "):
            others += [it for it in item if it.startswith("@")]
        elif '@"rattle-' not in item[0]:
            head, _, number = item[0].rpartition(" #")
            numbers[modules.name_of(head)] = number.split()[0]
            found[modules.name_of(head)] = Function(head, frozenset(), item[1:-1])
    for name, it in found.items():
        it.attributes = groups[numbers[name]]
    return found, others


def blocks_of(lines):
    """Returns the blocks of a function, each a list of its label and its lines."""
    blocks = [["start", []]]
    for line in (it.split(";")[0].rstrip() for it in lines):
        if begun := re.match(r"([\w.]+):$", line):
            if begun[1] != "start":
                blocks.append([begun[1], []])
        elif line:
            blocks[-1][1].append(line)
    return blocks


def join_blocks(blocks):
    """Removes unreachable blocks, and appends a block to its only predecessor. Returns whether it changed anything."""
    leads = {}
    for label, lines in blocks:
        for it in (to for line in lines for to in re.findall(r"label %([\w.]+)", line)):
            leads.setdefault(it, []).append(label)
    live = [it for it in blocks if it[0] == "start" or it[0] in leads]
    if len(live) != len(blocks):
        blocks[:] = live
        return True
    by_label = {it[0]: it for it in blocks}
    for label, lines in blocks:
        jump = re.match(r"  br label %([\w.]+)$", lines[-1])
        if jump and len(leads[jump[1]]) == 1 and jump[1] != label:
            lines[-1:] = by_label[jump[1]][1]
            blocks.remove(by_label[jump[1]])
            return True
    return False


def remove_dead(blocks):
    """Removes values that nothing reads and slots that are only stored to. Returns whether it changed anything."""
    lines = [it for _, block in blocks for it in block]
    users, slots, dead = {}, set(), set()
    for number, line in enumerate(lines):
        sets = re.match(r"  (%[\w.]+) = ", line)
        slots |= {sets[1]} if sets and " = alloca " in line else set()
        for it in REGISTER.findall(line[sets.end() if sets else 0 :]):
            users.setdefault(it, []).append(number)
    for number, line in enumerate(lines):
        sets = re.match(r"  (%[\w.]+) = ", line)
        uses = users.get(sets[1], []) if sets else []
        if sets and sets[1] in slots:
            stored = all(re.match(rf"  store .*, ptr {re.escape(sets[1])}, ", lines[it]) and lines[it].count(f"{sets[1]},") == 1 for it in uses)
            dead |= {number, *uses} if stored else set()
        elif sets and not uses and PURE.match(line):
            dead.add(number)
    numbers = iter(range(len(lines)))
    for block in blocks:
        block[1] = [it for it in block[1] if next(numbers) not in dead]
    return bool(dead)


def simple(lines):
    """Returns the text of a function without dead code, its registers and blocks numbered in the order of appearance."""
    blocks = blocks_of(lines)
    while join_blocks(blocks) or remove_dead(blocks):
        pass
    text, names = "\n".join(it for label, block in blocks for it in [f"{label}:", *block] if " = alloca " not in it), {}
    return NAME.sub(lambda it: names.setdefault(f"%{it[1]}" if it[1] else it[0], f"%{len(names)}"), text)


def plain(lines):
    """Returns a quick form of a function's text: equal forms mean equal functions, but not the other way round."""
    names = {}
    text = "\n".join(it.split(";")[0].rstrip() for it in lines if " = alloca " not in it and it.strip())
    return NAME.sub(lambda it: names.setdefault(f"%{it[1]}" if it[1] else it[0], f"%{len(names)}"), text)


def body_difference(mine, proved):
    """Returns the lines in which two functions differ, both without dead code."""
    if plain(mine.lines) == plain(proved.lines):
        return []
    return list(difflib.unified_diff(simple(mine.lines).split("\n"), simple(proved.lines).split("\n"), "./build", "proved", n=2, lineterm=""))


def differences(mine, proved):
    """Yields each difference of two modules, given as functions and declarations, with the lines that show it."""
    (mine, mine_others), (proved, proved_others) = mine, proved
    for name in [*mine, *(it for it in proved if it not in mine)]:
        if name not in proved or name not in mine:
            yield f"{name} is only in the module of {'./build' if name in mine else 'the proof'}", []
    if list(mine) != list(proved) and set(mine) == set(proved):
        yield "the functions are in another order", []
    if mine_others != proved_others:
        yield "static data differ", list(difflib.unified_diff(mine_others, proved_others, "./build", "proved", n=0, lineterm=""))
    for name in (it for it in mine if it in proved and it != "main"):
        one, two = mine[name], proved[name]
        if one.attributes != two.attributes:
            yield f"{name}: hints differ", [f"./build: {' '.join(sorted(one.attributes - two.attributes))}", f"proved: {' '.join(sorted(two.attributes - one.attributes))}"]
        if one.head != two.head:
            yield f"{name}: its type differs", [one.head, two.head]
        if lines := body_difference(one, two):
            yield f"{name}: its code differs", lines


def report(found):
    """Returns the lines of a report of differences."""
    lines = [f"{len(found)} differences between the module of ./build and the proved one"]
    for text, shown in found[:FUNCTIONS]:
        lines += [text, *(f"    {it.rstrip()}" for it in shown[:LINES])]
    return lines + [text for text, _ in found[FUNCTIONS:]]
