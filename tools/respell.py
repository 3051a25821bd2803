#!/usr/bin/env python3
"""Respells the repository's own names in specs/, proofs/ and the ghost text of src/: respell.py REPOSITORY

Run once, after the toolchain's port.py, at the state that the older Rattle left. Names are in tools/respell.txt, old and new. A name is taken
whole, or as a part between the dashes of a longer one; what stands in a string stays. Of comments and of the backticks of README.md and docs/
only names that the table has change. Must-fail edits get the names and the spelling of paths, projections and operators."""

import pathlib
import re
import sys

# A name; behind an operator's sign it is a part of that name, and stays.
NAME = re.compile(r"(?<![\w'◌≤≡⊞∷+*/%<·-])[A-Za-z_][\w'ℕℤ₀-₉-]*")
STRING = re.compile(r'"(?:[^"\\]|\\.)*"')
COMMENT = {".antt": re.compile(r"(?:^|(?<=\s))--(?=\s|$).*"), ".rt": re.compile(r"//.*")}
SPAN = re.compile(r"`[^`]*`")


def table(path):
    everywhere, within, port = {}, {}, {}
    for line in path.read_text(encoding="utf-8").splitlines():
        words = line.split()
        if line.startswith("#") or not words:
            continue
        if words[0] == "port":
            port[words[1]] = words[2]
        elif len(words) == 3:
            within.setdefault(words[0], {})[words[1]] = words[2]
        else:
            everywhere[words[0]] = words[1]
    return everywhere, within, everywhere | port


def respelled(text, names):
    def one(match):
        name = match.group(0)
        return names.get(name) or "-".join(names.get(part, part) for part in name.split("-"))

    return NAME.sub(one, text)


def code(line, names, suffix):
    """A line of source: what is no string by the table, of a comment only the words that have a capital inside."""
    at = COMMENT[suffix].search(line)
    cut = at.start() if at else len(line)
    out, last = [], 0
    for match in STRING.finditer(line[:cut]):
        out += [respelled(line[last:match.start()], names), match.group(0)]
        last = match.end()
    out.append(respelled(line[last:cut], names))
    return "".join(out) + respelled(line[cut:], {a: b for a, b in names.items() if "-" not in a})


# What port.py does to the files that it turns, for the lines of an edit.
EDITS = [
    (re.compile(r"Rattle·(\w+)·(?:specs|proofs)\.(specs|proofs)\."), r"Rattle.\1.\2."),
    (re.compile(r"Rattle·(\w+)\.(specs|proofs)\."), r"Rattle.\1.\2."),
    (re.compile(r"(?<=\w)·(?=\w)"), "."),
    (re.compile(r"\(([\w']+) ((?:\.[\w'-]+)(?: \.[\w'-]+)*)\)"), lambda m: m.group(1) + m.group(2).replace(" ", "")),
    (re.compile(r"(?<=[\w')]) \.(?=[a-z])"), "."),
    (re.compile(r"Option\.getD"), "Option.get_or"),
    (re.compile(r"\bgetD\b"), "get_or"),
]


def edit(line, names):
    if not line.startswith(("old: ", "new: ")):
        return line
    head, text = line[:5], line[5:]
    for old, new in EDITS:
        text = old.sub(new, text)
    return head + respelled(text, names)


def main(root):
    everywhere, within, outside = table(root / "tools" / "respell.txt")
    for path in sorted((root / "crates").rglob("*")):
        if "out" in path.relative_to(root).parts or path.suffix not in (".antt", ".rt", ".edit"):
            continue
        text = path.read_text(encoding="utf-8")
        own = within.get(path.relative_to(root).as_posix())
        turned = respelled(text, own) if own else text
        if path.suffix == ".edit":
            turned = "\n".join(edit(line, outside) for line in turned.split("\n"))
        else:
            turned = "\n".join(code(line, everywhere, path.suffix) for line in turned.split("\n"))
        if turned != text:
            path.write_text(turned, encoding="utf-8")
    for path in [root / "README.md", *sorted((root / "docs").glob("*.md"))]:
        text = path.read_text(encoding="utf-8")
        turned = SPAN.sub(lambda m: respelled(m.group(0), outside), text)
        if turned != text:
            path.write_text(turned, encoding="utf-8")


if __name__ == "__main__":
    main(pathlib.Path(sys.argv[1] if len(sys.argv) > 1 else "."))
