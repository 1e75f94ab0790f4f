"""Makes the program of the sources by the kit's front end, clang and linker, without proofs.

The result is byte for byte what the kit builds from the same sources after it has proved them. The kit has no command that compiles and
optimises without proofs, so this module takes the one that `rt try` hands to clang and rewrites it (rewriting.py).
"""
import subprocess
import sys

import hints
import modules
import records
import rewriting

# how the kit ends clang's arguments for a trial, and for a proved program
TRIAL = ["-O0", "-fsanitize=address"]
PROVED = ["-O3", "-Xclang", "-fmerge-functions", "-mllvm", "-mergefunc-use-aliases"]


def write_module(kit, folder, to, top=records.TOP, attribute=""):
    """Writes the rewritten module of the sources below `top` as text, and returns clang's arguments without the level."""
    trial = modules.of_trial(kit, folder / "trial", top)
    exceptions = records.exceptions()
    work = rewriting.Rewriting(kit, hints.Hints(kit, top, exceptions.hints), exceptions, attribute)
    with open(to, "w") as out:
        out.writelines(work.text(modules.items_of(modules.text_of(kit, trial))))
    if trial.arguments[-len(TRIAL) :] != TRIAL:
        sys.exit(f"The kit ends the arguments of clang otherwise than this script expects: {' '.join(trial.arguments)}")
    return trial.arguments[: -len(TRIAL)]


def compile_module(kit, arguments, file, to, level=PROVED):
    """Compiles a module with the kit's arguments, at the kit's own level by default."""
    files = {"module.bc": file, "module.o": to}
    words = [f"--sysroot={kit.toolchain}" if it.startswith("--sysroot=") else str(files.get(it, it)) for it in arguments]
    subprocess.run([kit.toolchain / "bin/clang", *words, *level], check=True, env={})


def link(kit, file, to):
    """Links an object file into a program as the kit does."""
    words = ["--target", "x86_64-unknown-linux-gnu", "--toolchain", kit.toolchain, "-o", to, file, *kit.libraries]
    ran = subprocess.run([kit.folder / "bin/rattle-link", *words], capture_output=True, text=True)
    if ran.returncode:
        sys.exit(f"The kit cannot link the program (status {ran.returncode}):\n{ran.stdout}{ran.stderr}")


def build(kit, folder, say):
    """Makes the program in a folder and returns its path; reports each step."""
    say("compiling the sources and the kit's libraries to LLVM code: about a minute, 1.6 GiB of memory")
    arguments = write_module(kit, folder, folder / "program.ll")
    say("optimising it: a minute or two, 0.5 GB of memory")
    compile_module(kit, arguments, folder / "program.ll", folder / "program.o")
    say("linking")
    link(kit, folder / "program.o", folder / "program")
    return folder / "program"
