#!/usr/bin/env python3
"""Compares the pages of a program with pages that are assembled from the texts of its other commands.

    pages.py PROGRAM

The pages are those of all examples, of hostile sources and names, of long outputs and of runs with too many strands, with several
options and numbers of workers. Runs that do not finish must give no page, and failed writes the beginning of one. The last line is
the number of cases; the status is 1 if one fails.
"""
import os
import pathlib
import subprocess
import sys
import tempfile

import assemble

EXAMPLES = pathlib.Path(assemble.TOP, "examples")
CONTROLS = bytes(byte for byte in range(128) if byte != 10)
HOSTILE = b"// " + CONTROLS + b"""
// </pre></script></style></title> <!-- <script>alert(1)</script> ]]> --> {{SITES}} {{SOURCE}} &lt; &#60; "'` \\\r
int main() {\r
\treturn 0; // </pre>
}"""
LINES = b"""int main(int n) {
  int i = 0;
  while (i < n) {
    print(1000000 + i);
    i = i + 1;
  }
  return i;
}
"""
SPAWNS = b"""int fib(int n) {
  int a = 0;
  int b = 0;
  if (n < 2) {
    return n;
  }
  a = cilk_spawn fib(n - 1);
  b = fib(n - 2);
  cilk_sync;
  return a + b;
}

int main(int n) {
  int r = 0;
  r = fib(n);
  return r;
}
"""
DIVIDES = b"int main(int n) {\n  print(1);\n  return 1 / n;\n}\n"
ENDLESS = b"int main() {\n  print(1);\n  while (1) {\n  }\n  return 0;\n}\n"
LONGEST = b"\nint main() { return 0; }"  # after a comment, in the longest source
STDIN = b"<stdin>"  # the name of standard input
OPTIONS = [{"processors": 48}, {"processors": 1}, {"processors": 1000000}, {"top": 1}, {"burden": 0}, {"burden": 1000, "edges": "both"}]
WHOLE = 131072  # lines of LINES that fill 1 MiB


def words_of(options):
    """Returns options as words of a command line."""
    return [word for name, value in options.items() for word in ("--" + name, str(value))]


def ran(program, *words, **how):
    """Returns the status, standard output and standard error of a command."""
    done = subprocess.run([program, *words], **{"stdin": subprocess.DEVNULL, "stdout": subprocess.PIPE, "stderr": subprocess.PIPE, **how})
    return done.returncode, done.stdout, done.stderr


class Cases:
    """The cases that were tried, and the names of those that failed."""

    def __init__(self, program, folder):
        self.program, self.folder, self.count, self.failed = program, pathlib.Path(folder), 0, []

    def note(self, name, passed):
        self.count += 1
        if not passed:
            self.failed.append(name)

    def write(self, name, source):
        path = self.folder / name
        path.write_bytes(source)
        return path

    def page(self, path, arguments=(), more=(), **options):
        """Compares a page with the assembled one; `more` are options that must not change it."""
        status, expected = assemble.page_by(self.program, path, arguments, **options)
        words = [path, *arguments, *words_of(options), *more]
        self.note("page " + " ".join(map(str, words)), status == 0 and ran(self.program, "page", *words) == (0, expected, b""))

    def no_page(self, path, *words):
        """Demands what other reports do: nothing on standard output, and status and error of `run`."""
        status, _, error = ran(self.program, "run", path, *words)
        expected = status, b"", error
        reported = [ran(self.program, command, path, *words) for command in ("page", "scale")]
        self.note("no page " + " ".join(map(str, [path, *words])), status != 0 and reported == [expected] * 2)


def try_examples(cases):
    for path in sorted(EXAMPLES.glob("*.cilk")):
        cases.page(path, path.with_suffix(".args").read_text().split())
        expected = path.with_suffix(".page.html")
        if expected.exists():
            made = ran(cases.program, "page", path, *path.with_suffix(".args").read_text().split())
            cases.note(expected.name, made == (0, expected.read_bytes(), b""))
    for options in OPTIONS:
        cases.page(EXAMPLES / "mergesort.cilk", ["400"], **options)
    for workers in (1, 3, 64):
        cases.page(EXAMPLES / "mergesort.cilk", ["0400"], ["--workers", str(workers), "--limit", "1000000", "--explain"])


def try_hostile(cases):
    cases.page(cases.write("hostile.cilk", HOSTILE))
    cases.page(cases.write("a&b <i>'\"{{SITES}}\u00e9 .cilk", HOSTILE + b"\n"))
    cases.page(cases.write("long.cilk", b"//" + LONGEST.rjust((1 << 20) - 2, b"<")))
    for lines in (WHOLE - 1, WHOLE, WHOLE + 1, 2 * WHOLE):
        cases.page(cases.write("lines.cilk", LINES), [str(lines)])
    cases.page(cases.write("spawns.cilk", SPAWNS), ["27"], processors=4, top=1)
    status, expected = assemble.page_by(cases.program, cases.write("lines.cilk", LINES), ["3"], STDIN)
    cases.note("page - 3", status == 0 and ran(cases.program, "page", "-", "3", stdin=None, input=LINES) == (0, expected, b""))


def try_failures(cases):
    cases.no_page(cases.write("divides.cilk", DIVIDES), "0")
    cases.no_page(cases.write("divides.cilk", DIVIDES), "0", "--explain")
    cases.no_page(cases.write("divides.cilk", DIVIDES))
    cases.no_page(cases.write("endless.cilk", ENDLESS), "--limit", "1000")
    cases.no_page(cases.folder / "missing.cilk")
    for source in (b"", b"int main() {", b"int main() { return x; }", b"int main() { return 0; } // \x80"):
        cases.no_page(cases.write("refused.cilk", source))
    words = [cases.write("lines.cilk", LINES), str(WHOLE)]
    expected = assemble.page_by(cases.program, words[0], words[1:])[1]
    with open("/dev/full", "wb") as full:
        cases.note("/dev/full", ran(cases.program, "page", *words, stdout=full)[::2] == (7, b"write failed\n"))
    read, write = os.pipe()
    with subprocess.Popen([cases.program, "page", *words], stdin=subprocess.DEVNULL, stdout=write, stderr=subprocess.PIPE) as running:
        os.close(write)
        begun = os.read(read, 1000)
        os.close(read)
        error = running.stderr.read()
    cases.note("a closed pipe", (running.returncode, error) == (7, b"write failed\n") and expected.startswith(begun))


def main():
    if len(sys.argv) != 2:
        sys.exit(__doc__)
    with tempfile.TemporaryDirectory() as folder:
        cases = Cases(os.path.abspath(sys.argv[1]), folder)
        for part in (try_examples, try_hostile, try_failures):
            part(cases)
    for name in cases.failed:
        print("differs: " + name)
    print("%d pages, %d differ" % (cases.count, len(cases.failed)))
    return 1 if cases.failed or not cases.count else 0


if __name__ == "__main__":
    sys.exit(main())
