"""The kit, which proves and compiles this repository."""
import dataclasses
import importlib.machinery
import importlib.util
import pathlib
import re
import shutil
import subprocess
import sys

# Python must not write into the kit's folder
sys.dont_write_bytecode = True


@dataclasses.dataclass(frozen=True)
class Kit:
    """A kit: its folder and its identity, the line that `rt version` prints."""

    folder: pathlib.Path
    line: str

    @property
    def toolchain(self):
        """Returns the folder of clang and the libraries."""
        return self.folder / "toolchain"

    @property
    def libraries(self):
        """Returns the archives that the kit links with every program."""
        return [self.folder / "c/libos_c.a", self.folder / "c/liblibc_c.a"]

    def formats(self):
        """Returns the texts of the files that describe the kit's libraries: their hints, and the logic that they are proved in."""
        return [file.read_text() for file in sorted((self.folder / "rlibs").glob("*/format"))]

    def logic(self):
        """Returns the sum of the program logic, which the compiled program names."""
        return re.search(r"(?m)^logic (\w+)$", (self.folder / "rlibs/core.rlib/format").read_text())[1]

    def rtlib(self):
        """Returns the kit's own functions on crates."""
        loader = importlib.machinery.SourceFileLoader("rtlib", str(self.folder / "bin/rtlib.py"))
        rtlib = importlib.util.module_from_spec(importlib.util.spec_from_loader("rtlib", loader))
        loader.exec_module(rtlib)
        return rtlib

    def program(self, top):
        """Returns the crate of the program below a folder that has crates.txt, as the kit reads it."""
        return self.rtlib().Crate(str(top / "crates/cilkwork"), str(top), {})

    def crates(self, top):
        """Returns the crates of the program: those that it uses, the lowest first, and its own."""
        crate = self.program(top)
        return [*crate.below(), crate]


# the kits that these sources were tried with, as `rt version` prints them
LOGIC = "logic dac8208d650f15bf"
SUPPORTED = tuple(f"rattle-kit-{it} {LOGIC}" for it in ("13b", "13f"))


def supported():
    """Returns instructions for a user whose kit is missing or not supported."""
    lines = "".join(f"\n    {it}" for it in SUPPORTED)
    return f"""This repository is built by one of these kits. Unpack it and put its folder bin first on the path, for example
    export PATH=/PATH/OF/THE/KIT/bin:$PATH
Then run ./build again. 'rt version' must print one of these lines:{lines}"""


def found(is_new=False):
    """Returns the kit whose `rt` is on the path. Exits if there is none, or, unless it may be new, one that is not supported."""
    if not shutil.which("rt"):
        sys.exit(f"The command rt is not on the path.\n{supported()}")
    version, page = [subprocess.run(["rt", word], capture_output=True, text=True) for word in ("version", "doc")]
    line = version.stdout.strip()
    if version.returncode or not is_new and line not in SUPPORTED:
        sys.exit(f"The rt on the path belongs to another kit: {line or version.stderr.strip()}.\n{supported()}")
    return Kit(pathlib.Path(page.stdout.strip()).parent, line)
