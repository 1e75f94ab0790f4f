#!/usr/bin/env python3
"""Computes the length of the greedy schedule of a strand tree, step by step over the edges of its dag.

Run as a program, it tests itself with lengths worked out by hand.

In each step the first ready strands in serial order, at most one for each processor, execute one instruction each. A strand is
ready if it is not finished and all strands with an edge to it are; a strand without instructions finishes when it is ready.
"""
import bisect
import sys

from trees import Fork, Mark, Tree


class Dag:
    """Strands in serial order: for each its remaining instructions, the number of strands that it waits for, and its successors."""

    def __init__(self, tree):
        self.left, self.waits_for, self.successors = [], [], []
        self.add(tree, [])

    def strand(self, weight, before):
        place = len(self.left)
        self.left.append(weight)
        self.waits_for.append(len(before))
        self.successors.append([])
        for other in before:
            self.successors[other].append(place)
        return [place]

    def add(self, tree, before):
        """Adds a tree after the strands `before`, and returns its last strands."""
        for part in tree.parts:
            if isinstance(part, Fork):
                child = self.add(part.child, before)
                rest = self.add(part.rest, before)
                before = child + rest
            elif isinstance(part, Mark):
                before = self.add(part.inner, before)
            else:
                before = self.strand(part, before)
        return before if tree.parts else self.strand(0, before)

    def first(self):
        """Returns the strands that are ready at the start, in serial order."""
        return self.settled([place for place, count in enumerate(self.waits_for) if count == 0])

    def ended(self, place):
        """Returns the strands that become ready when this one finishes, in serial order."""
        ready = []
        for other in self.successors[place]:
            self.waits_for[other] -= 1
            if self.waits_for[other] == 0:
                ready.append(other)
        return self.settled(ready)

    def settled(self, ready):
        """Returns the strands of `ready` that have instructions, and the strands that become ready when the others finish."""
        some = []
        while ready:
            place = ready.pop()
            if self.left[place] > 0:
                bisect.insort(some, place)
            else:
                ready += self.ended(place)
        return some


def greedy_length(tree, processors):
    """Returns the number of steps of the greedy schedule."""
    dag = Dag(tree)
    ready, steps = dag.first(), 0
    while ready:
        steps += 1
        new = []
        for place in ready[:processors]:
            dag.left[place] -= 1
            if dag.left[place] == 0:
                ready.remove(place)
                new += dag.ended(place)
        for place in new:
            bisect.insort(ready, place)
    return steps


def check():
    from check import FIB, LINES
    from ref import Program, Run

    # a child that forks, and a continuation of two instructions, which must wait for both strands of the child
    displaced = Tree([1, Fork(Tree([1, Fork(Tree([3]), Tree([3]))]), Tree([2]))])
    # strands without instructions before, in and after a fork
    empty = Tree([0, Fork(Tree([0]), Tree([2])), 0, Fork(Tree([]), Tree([1])), 0])
    known = [(displaced, 1, 10), (displaced, 2, 6), (displaced, 3, 5), (empty, 1, 3), (empty, 2, 3), (Tree([]), 1, 0)]
    fib, lines = Run(Program(FIB), [4], 10**9).tree, Run(Program(LINES), [], 10**9).tree
    known += [(fib, 1, 120), (fib, 2, 76), (fib, 1000000, 67), (lines, 1, 15), (lines, 2, 10)]
    for tree, processors, length in known:
        found = greedy_length(tree, processors)
        if found != length:
            sys.exit(f"{processors} processors: {found} steps, expected {length}")
    print(f"{len(known)} lengths are as expected")


if __name__ == "__main__":
    check()
