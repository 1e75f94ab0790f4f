"""The number of the commit, by which the samples of the full check rotate."""
import os
import subprocess

TOP = os.path.normpath(os.path.join(os.path.dirname(os.path.abspath(__file__)), ".."))


def git(*words):
    """Returns what git prints, or an empty text if it fails."""
    try:
        return subprocess.run(["git", "-C", TOP, *words], capture_output=True, text=True).stdout.strip()
    except OSError:
        return ""


def number():
    """Returns the number of commits on the main line, so that ten commits in a row have ten different last digits.

    A clone without the whole history counts too few commits: there it is a number from the commit's hash. Without git it is 0."""
    count = git("rev-list", "--count", "--first-parent", "HEAD")
    if count.isdigit() and git("rev-parse", "--is-shallow-repository") == "false":
        return int(count)
    return int(git("rev-parse", "HEAD")[:8] or "0", 16)
