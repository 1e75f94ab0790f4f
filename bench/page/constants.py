#!/usr/bin/env python3
"""Writes the constant pieces of a page as byte strings into crates/cw_report/src, or compares them with the files there.

    constants.py [--check]

The files are page_style.rt (page.css), page_script.rt (page.js) and page_frame.rt (what template.html has between its holes). Each constant is
named in one function only, because a proof of any other function that named it would carry all its bytes. All others name the definition of
specs/Frame.antt, which is unfolded in that function only.
"""
import os
import sys

import assemble

FOLDER = os.path.normpath(os.path.join(os.path.dirname(os.path.abspath(__file__)), "../../crates/cw_report/src"))
HEAD = '''//! %s, written by `bench/page/constants.py`.

ghost use Rattle.std.specs.Prelude.{\u25cc\u2261\u25cc};
ghost use Rattle.cw_report.specs.Frame.{%s};
'''
CONSTANT = '''
const %s: &[u8] =%sbr##"%s"##;

/// Returns %s.
#[tactic(auto, unfolding(crate::specs::Frame::%s))]
pub fn %s() -> &'static [u8]
    ensures { result.now \u2261 %s }
{
    %s
}
'''
FILES = [
    ("page_style.rt", "The style of a page (`bench/page/page.css`)", ["STYLE"]),
    ("page_script.rt", "The script of a page (`bench/page/page.js`)", ["SCRIPT"]),
    ("page_frame.rt", "The pieces of a page between its holes (`bench/page/template.html`)", None),
]
WIDTH = 100  # characters of a line, by `rt fmt`
WORDS = {"STYLE": "the style", "SCRIPT": "the script", "END": "the piece after the last hole"}


def constant(name, piece):
    """Returns a constant and the function that returns it."""
    text = piece.decode("ascii")
    if '"##' in text or "\r" in text:
        raise SystemExit("%s has a character that its literal cannot have" % name)
    words = WORDS.get(name) or "the piece before the hole %s" % name.removeprefix("BEFORE_")
    line = 'const %s: &[u8] = br##"%s' % (name, text.partition("\n")[0])
    lower = name.lower()
    return CONSTANT % (name, "\n    " if len(line) > WIDTH else " ", text, words, lower, lower, lower, name)


def file_text(title, names, pieces):
    """Returns the text of the file of these constants."""
    words = [name.lower() for name in names]
    listed = words[0] if len(words) == 1 else "\n  " + ",\n  ".join(sorted(words)) + ",\n"
    return HEAD % (title, listed) + "".join(constant(name, pieces[name]) for name in names)


def texts():
    """Returns the text of each file, by its path."""
    pieces = assemble.constants()
    rest = [name for name in pieces if name not in ("STYLE", "SCRIPT")]
    return {os.path.join(FOLDER, file): file_text(title, names or rest, pieces) for file, title, names in FILES}


def main():
    stale = 0
    for path, text in texts().items():
        if "--check" not in sys.argv:
            with open(path, "w", encoding="utf-8") as file:
                file.write(text)
            continue
        with open(path, encoding="utf-8") as file:
            if file.read() != text:
                stale += 1
                print("differs: %s (run bench/page/constants.py)" % os.path.relpath(path, os.path.dirname(FOLDER)))
    return 1 if stale else 0


if __name__ == "__main__":
    sys.exit(main())
