"""Proves the program and the crates below it with `rt ci`, in parallel.

It reuses earlier proofs: those that the kit keeps, and the last full check in the same folder, if crates and program are unchanged.
"""
import hashlib
import os
import pathlib
import re
import shutil
import subprocess
import sys
import time

import costs
import records

# what a proof reads of a crate, and what a run of a program needs
READ = ("src", "specs", "proofs", "data", "stdin", "stdout", "args", "status")
# the estimate adds this number of seconds of proofs at the expected pace, since the first proofs predict little
TRUST = 300
# the program that `rt ci` builds, and the sums of what the full check proved and built
PROGRAM = "crates/cilkwork/out/cilkwork"
KEPT = "crates/cilkwork/out/proved"


def minutes(seconds):
    """Returns a duration in words."""
    return f"about {round(seconds / 60)} minutes" if seconds >= 90 else "about a minute"


class Progress:
    """Reports each crate that is proved, with the minutes since the start, and how long the others will take."""

    def __init__(self, crates, say):
        self.seconds = {it.name: costs.measured().get(it.name, costs.SMALL)[0] for it in crates}
        self.uses = {it.name: [dep.name for dep in it.deps] for it in crates}
        self.left, self.say = list(self.seconds), say
        self.begun, self.proved, self.kept = time.monotonic(), 0, 0

    def elapsed(self):
        """Returns the minutes since the start."""
        return (time.monotonic() - self.begun) / 60

    def remaining(self):
        """Returns an estimate of the seconds that are left, at the pace of the proofs so far."""
        pace = (time.monotonic() - self.begun + TRUST / costs.LANES) / (self.proved + TRUST) * costs.LANES
        return pace * costs.expected({name: self.uses[name] for name in self.left})[0]

    def read(self, line):
        """Reads a line of `rt ci`, and reports the crate that it says is proved."""
        found = re.match(r"rt: (\w+) (proved$|is kept|NOT PROVED)", line)
        if not found or found[1] not in self.left:
            return
        if found[2] == "NOT PROVED":
            self.say(f"{self.elapsed():4.0f} min: {found[1]} is NOT PROVED")
            return
        self.left.remove(found[1])
        is_kept = found[2] != "proved"
        self.kept += is_kept
        self.proved += 0 if is_kept else self.seconds[found[1]]
        ahead = f"{len(self.left)} of {len(self.seconds)} left, {minutes(self.remaining())}" if self.left else "none left"
        self.say(f"{self.elapsed():4.0f} min: proved {found[1]}{' by an earlier run' if is_kept else ''}; {ahead}")

    def conclude(self):
        """Reports the total time."""
        self.say(f"proved {len(self.seconds)} crates, {self.kept} of them by earlier runs, and built the program in {self.elapsed():.1f} minutes")


def copy_crates(top, crates, to):
    """Copies what the proofs of crates read to a folder, which becomes the top of a repository of these crates."""
    (to / ".git").mkdir(parents=True)
    names = {it.name for it in crates}
    for it in crates:
        for part in READ:
            file = pathlib.Path(it.folder, part)
            if file.exists():
                (shutil.copytree if file.is_dir() else shutil.copy)(file, to / "crates" / it.name / part)
    lines = (top / "crates.txt").read_text().splitlines(True)
    (to / "crates.txt").write_text("".join(it for it in lines if it.split(":")[0].split()[:1] and it.split(":")[0].split()[0] in names))
    shutil.copy(top / "HANDLES", to)


def state(kit, top):
    """Returns the sums of all that the proofs of the program below `top` read, and of the program that is built there."""
    crates, found = kit.crates(top), hashlib.sha256(f"{kit.line}\n".encode())
    for it in crates:
        found.update(f"{it.name}: {' '.join([dep.name for dep in it.deps] + list(it.of_kit))}\n".encode())
        parts = [pathlib.Path(it.folder, part) for part in READ]
        files = [file for part in parts for file in ([part] if part.is_file() else sorted(part.rglob("*"))) if file.is_file()]
        records.add_files(found, files, top)
    return f"{found.hexdigest()} {records.sum_of_file(top / PROGRAM)}\n"


def keep(kit, top):
    """Records that `rt ci` has just proved everything below `top` and built the program there."""
    (top / KEPT).write_text(state(kit, top))


def is_kept(kit, top):
    """Returns whether the last full check below `top` proved the crates as they are now, and its program is still there."""
    return (top / KEPT).exists() and (top / PROGRAM).exists() and (top / KEPT).read_text() == state(kit, top)


def prove(kit, top, to, say):
    """Proves the program of the sources below `top` and the crates below it, unless the last full check there has.

    Returns the folder in which the program and its libraries are built: `top`, or a copy at `to`. Exits if a crate is not proved."""
    if is_kept(kit, top):
        say("these sources, specifications and proofs were proved by the last full check here")
        return top
    crates = kit.crates(top)
    copy_crates(top, crates, to)
    progress = Progress(crates, say)
    say(f"proving {len(crates)} crates: {minutes(progress.remaining())} if nothing is kept from an earlier run")
    env = {"RT_JOBS": str(costs.LANES), **os.environ, "PYTHONUNBUFFERED": "1"}
    lines = []
    with subprocess.Popen([kit.folder / "bin/rt", "ci"], cwd=to, env=env, stdout=subprocess.PIPE, stderr=subprocess.STDOUT, text=True, errors="replace") as ran:
        for line in ran.stdout:
            lines.append(line)
            progress.read(line)
    if ran.returncode or not (to / PROGRAM).exists():
        sys.exit(f"Not proved (status {ran.returncode}):\n{''.join(lines[-40:])}")
    progress.conclude()
    return to
