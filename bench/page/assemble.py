#!/usr/bin/env python3
"""Assembles the page of a run from the texts of the other commands, independently of `cilkwork page`.

    assemble.py [--cilkwork PROGRAM] FILE [ARGUMENT ..] [OPTION ..] > page.html

A page is constant text with holes, and in each hole a text, escaped: `page` returns it. The options are those of `cilkwork page`
(--processors, --top, --burden, --edges). If the run does not finish, the script writes no page and returns the status of `run`.
"""
import argparse
import base64
import hashlib
import os
import re
import subprocess
import sys

HERE = os.path.dirname(os.path.abspath(__file__))
TOP = os.path.normpath(os.path.join(HERE, "..", ".."))
RELEASE = os.path.join(TOP, "crates", "cw_words", "src", "release.rt")
OUTPUT_LIMIT = 1 << 20  # bytes of printed output in a page, cut at the end of a line
REPORTS = ["scale", "speedup", "gain", "sites"]
OPTIONS = {"scale": ["burden", "edges"], "speedup": ["burden", "edges", "processors"], "gain": ["burden", "edges", "top"], "sites": []}


def escape(data):
    """Returns bytes as the content of an HTML element: ASCII, with one character for each byte."""
    out = bytearray()
    for byte in data:
        if byte in b"&<>\"'\r":
            out += b"&#%d;" % byte
        elif byte in b"\t\n" or 0x20 <= byte < 0x7F:
            out.append(byte)
        elif byte < 0x20:
            out += b"&#%d;" % (0x2400 + byte)  # the picture of a control character
        elif byte == 0x7F:
            out += b"&#%d;" % 0x2421
        else:
            out += b"&#65533;"  # the replacement character
    return bytes(out)


def read(name):
    """Returns the bytes of a file of this folder."""
    with open(os.path.join(HERE, name), "rb") as file:
        return file.read()


def digest(text):
    """Returns what a content security policy names a text between tags by: a line feed and a file."""
    return base64.b64encode(hashlib.sha256(b"\n" + text).digest())


def constants():
    """Returns the constant pieces of a page in order, by their names: BEFORE_HOLE is the piece before a hole of the template."""
    style, script = read("page.css"), read("page.js")
    template = read("template.html").replace(b"{{STYLE_HASH}}", digest(style)).replace(b"{{SCRIPT_HASH}}", digest(script))
    *parts, end = re.split(rb"\{\{([A-Z]+)\}\}", template)
    pieces = {}
    for piece, hole in zip(parts[::2], parts[1::2]):
        pieces["BEFORE_" + hole.decode()] = piece
        pieces.update({b"STYLE": {"STYLE": style}, b"SCRIPT": {"SCRIPT": script}}.get(hole, {}))
    return {**pieces, "END": end}


def page(texts):
    """Returns the page with these texts in its holes."""
    out = []
    for name, piece in constants().items():
        hole = name.removeprefix("BEFORE_")
        out += [piece, escape(texts[hole])] if name != hole and hole in texts else [piece]
    return b"".join(out)


def version():
    """Returns the version of the program."""
    with open(RELEASE, encoding="utf-8") as file:
        return re.search(r'"cilkwork ([\d.]+)\\n"', file.read())[1]


def texts_of(name, arguments, reports, source, burden=15000, edges="spawn"):
    """Returns the texts of the holes, from what the commands print: `reports` has `run` and REPORTS."""
    output = reports["run"]
    words = " ".join(str(int(word)) for word in arguments)
    value = re.search(rb"return (-?\d+)\n$", output)[1].decode()
    about = {"version": version(), "arguments": words, "burden": burden, "edges": edges, "value": value, "output_lines": output.count(b"\n")}
    if len(output) > OUTPUT_LIMIT:
        output = output[: output.rindex(b"\n", 0, OUTPUT_LIMIT) + 1]
    title = name + (b" " + words.encode() if words else b"")
    texts = {"TITLE": title, "HEADING": title, "ABOUT": ("name,value\n" + "".join("%s,%s\n" % row for row in about.items())).encode()}
    return {**texts, **{report.upper(): reports[report] for report in REPORTS}, "OUTPUT": output, "SOURCE": source}


def page_by(program, path, arguments=(), name=None, **options):
    """Returns the status of `run` and, if it is 0, the page that the commands of a program make; `name` is by default the file's."""
    reports = {}
    for command in ["run", *REPORTS]:
        given = [word for name in OPTIONS.get(command, []) if name in options for word in ("--" + name, str(options[name]))]
        ran = subprocess.run([program, command, path, *arguments, *given], stdin=subprocess.DEVNULL, capture_output=True)
        if ran.returncode:
            return ran.returncode, None
        reports[command] = ran.stdout
    with open(path, "rb") as file:
        source = file.read()
    given = {name: options[name] for name in ("burden", "edges") if name in options}
    name = os.path.basename(os.fsencode(path)) if name is None else name
    return 0, page(texts_of(name, arguments, reports, source, **given))


def main():
    parser = argparse.ArgumentParser()
    parser.add_argument("--cilkwork", default=os.path.join(TOP, "bin", "cilkwork"))
    parser.add_argument("--processors", type=int)
    parser.add_argument("--top", type=int)
    parser.add_argument("--burden", type=int)
    parser.add_argument("--edges")
    parser.add_argument("file")
    parser.add_argument("arguments", nargs="*")
    options = {name: value for name, value in vars(parser.parse_args()).items() if value is not None}
    status, text = page_by(options.pop("cilkwork"), options.pop("file"), options.pop("arguments"), **options)
    if text is not None:
        sys.stdout.buffer.write(text)
    return status


if __name__ == "__main__":
    sys.exit(main())
