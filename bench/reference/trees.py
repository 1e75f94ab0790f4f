"""Strand trees in normal form, and what is computed from them: work, span, burdened span, rows of sites and of tags, and the
tree in which some sites are free.

A tree is a sequence of parts: a number is a strand with this number of instructions, a `Fork` is a child in parallel with the
continuation of its block, and a `Mark` is an invocation of a site or an execution of a tag. No two strands are neighbours, and
no strand is empty.
"""


class Tree:
    def __init__(self, parts):
        self.parts = parts
        self.work = sum(part if isinstance(part, int) else part.work for part in parts)
        self.span = sum(part if isinstance(part, int) else part.span for part in parts)


class Fork:
    """A spawned child in parallel with the rest of its block, the continuation."""

    def __init__(self, child, rest):
        self.child, self.rest = child, rest
        self.work = child.work + rest.work
        self.span = max(child.span, rest.span)


class Mark:
    """An invocation of a site, if `key` is its number, or an execution of a tag, if `key` is a text."""

    def __init__(self, key, inner):
        self.key, self.inner = key, inner
        self.work, self.span = inner.work, inner.span


class Block:
    """The parts of a sync block so far. The parts after a spawn are collected separately until the block joins."""

    def __init__(self):
        self.parts, self.waiting = [], []

    def add(self, part):
        if isinstance(part, int) and self.parts and isinstance(self.parts[-1], int):
            self.parts[-1] += part
        elif part != 0:
            self.parts.append(part)

    def splice(self, tree):
        for part in tree.parts:
            self.add(part)

    def spawn(self, child):
        self.waiting.append((self.parts, child))
        self.parts = []

    def join(self):
        while self.waiting:
            before, child = self.waiting.pop()
            rest = Tree(self.parts)
            self.parts = before
            self.add(Fork(child, rest))

    def tree(self):
        self.join()
        return Tree(self.parts)


class Burden:
    """The charge of a path at a fork: on the edge to the continuation, and with `both` also on the edge to the child."""

    def __init__(self, charge, edges="spawn"):
        self.charge, self.edges = charge, edges
        self.at_rest, self.at_child = charge, charge if edges == "both" else 0


def burdened_span(burden, tree):
    """Returns the weight of a heaviest path, with its charge at each fork."""
    total = 0
    for part in tree.parts:
        if isinstance(part, int):
            total += part
        elif isinstance(part, Fork):
            through_child = burden.at_child + burdened_span(burden, part.child)
            total += max(through_child, burden.at_rest + burdened_span(burden, part.rest))
        else:
            total += burdened_span(burden, part.inner)
    return total


def freed(tree, frees, site=0):
    """Returns the tree in which the strands of the sites `frees` are empty; strands outside of an invocation belong to `site`."""
    block = Block()
    for part in tree.parts:
        if isinstance(part, int):
            block.add(0 if site in frees else part)
        elif isinstance(part, Fork):
            block.add(Fork(freed(part.child, frees, site), freed(part.rest, frees, site)))
        else:
            inner = part.key if isinstance(part.key, int) else site
            block.add(Mark(part.key, freed(part.inner, frees, inner)))
    return block.tree()


class SiteRow:
    def __init__(self):
        self.calls = self.own_work = self.own_span = self.work = self.span = 0


class RegionRow:
    def __init__(self):
        self.work = self.span = self.burdened = 0


class Rows:
    """The rows of `count` sites and of some tags in a tree."""

    def __init__(self, burden, tree, count, tags):
        self.burden, self.around = burden, set()
        self.sites = [SiteRow() for _ in range(count)]
        self.regions = {tag: RegionRow() for tag in tags}
        self.walk(tree, 0, True)

    def walk(self, tree, site, is_chosen):
        for part in tree.parts:
            if isinstance(part, int):
                self.sites[site].own_work += part
                self.sites[site].own_span += part if is_chosen else 0
            elif isinstance(part, Fork):
                takes_child = part.child.span >= part.rest.span
                self.walk(part.child, site, is_chosen and takes_child)
                self.walk(part.rest, site, is_chosen and not takes_child)
            else:
                self.marked(part, site, is_chosen)

    def marked(self, mark, site, is_chosen):
        is_site = isinstance(mark.key, int)
        row = self.sites[mark.key] if is_site else self.regions[mark.key]
        if is_site:
            row.calls += 1
        is_outermost = mark.key not in self.around
        if is_outermost:
            row.work += mark.work
            row.span += mark.span
            if not is_site:
                row.burdened += burdened_span(self.burden, mark.inner)
            self.around.add(mark.key)
        self.walk(mark.inner, mark.key if is_site else site, is_chosen)
        if is_outermost:
            self.around.remove(mark.key)
