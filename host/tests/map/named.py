"""What docs/MAP.md names is there: named.py REPOSITORY

Every name in backticks in the tables and the headed paragraphs of docs/MAP.md must stand in the project: a definition, law, constructor or field of specs/ or proofs/, a function,
type, variant, field, constant or module of src/, a crate, a path; after "must-fail" an edit. A term's words are names, but for its single letters and
its numbers. Names and a place in brackets behind them, as "`several`, `names` (EdgesSign)", must stand in that very place:

    (File)           specs/ or proofs/ of model or examples, the file of that name
    (File, crate)    the same of another crate
    (crate)          anywhere in that crate
    (crate::module)  that file of its src/

Brackets behind a name hold a place, or names that stand in the same file as that name, or both with a semicolon between. A name without a place
in a column "Definition" is one of model's specs/. A headed paragraph is a row with long cells: its head in bold, then for each column an item
"- Column: text", which may go on in indented lines."""

import itertools
import pathlib
import re
import sys

SPAN = re.compile(r"`([^`]*)`")
# Names that one place may follow, and what stands in the brackets behind them.
NAMES = re.compile(r"(must-fail )?(`[^`]*`(?:(?:, and |, | and )`[^`]*`)*)(?: \(([^()]*)\))?")
PLACE = re.compile(r"(\w+)(?:, (\w+)|::(\w+))?")
# A type by its keyword; else what stands before a colon, several constructors perhaps, unless it is bound inside a proof.
ANTT = re.compile(r"^ *(?!let )(?:(?:pub|abbrev|unfoldable) )*(?:(?:record|data) ([^\s:{}]+)|([^\s:(){}]+(?: [^\s:(){}]+)*)\s+:\s)", re.M)
RUST = re.compile(r"\b(?:fn|struct|enum|const|mod) (\w+)")
BODY = re.compile(r"\b(?:struct|enum) \w+[^{;(]*\{(.*?)^\}", re.M | re.S)
MEMBER = re.compile(r"^ +(?:pub )?(\w+)", re.M)


def names_of(path):
    """What a source file names, itself among it."""
    text = path.read_text(encoding="utf-8")
    if path.suffix == ".antt":
        found = {name for pair in ANTT.findall(re.sub("--.*", "", text)) for name in " ".join(pair).split()}
    else:
        text = re.sub("//.*", "", text)
        found = set(RUST.findall(text)) | {name for body in BODY.findall(text) for name in MEMBER.findall(body)}
    return found | {path.stem}


class Project:
    def __init__(self, root):
        self.root = root
        self.crates = {path.name for path in root.glob("crates/*")}
        self.files = {path: names_of(path) for part, kind in (("specs", "antt"), ("proofs", "antt"), ("src", "rt"))
                      for path in root.glob(f"crates/*/{part}/**/*.{kind}")}
        self.edits = {path: {path.stem} for path in root.glob("crates/*/must-fail/*.edit")}

    def within(self, place):
        """The folders and files that a place in brackets means."""
        match = PLACE.fullmatch(place)
        if not match:
            return []
        first, crate, module = match.groups()
        if module:
            return list(self.root.glob(f"crates/{first}/src/{module}.rt"))
        if first in self.crates and not crate:
            return [self.root / "crates" / first]
        return [path for c in ([crate] if crate else ["model", "examples"]) for part in ("specs", "proofs")
                for path in self.root.glob(f"crates/{c}/{part}/{first}.antt")]

    def where(self, name, places, edits=False):
        """The files within the places that have the name."""
        return [path for path, names in (self.edits if edits else self.files).items()
                if name in names and any(path.is_relative_to(place) for place in places)]


def words(span):
    """The names in a span: a path is one, a term has several."""
    if "/" in span:
        return [span]
    return [word for word in re.split(r"[\s()]+|::|\.\.", span) if word and not re.fullmatch(r"\w′?|0x[0-9A-F]+|\d+", word)]


def check(cell, column, project):
    """The names of a cell, and those that are not where they should be."""
    named, missing, chain = [], [], (0, False)
    for match in NAMES.finditer(cell):
        # "must-fail" goes on behind a place, as in "must-fail `a` (model), `b` (commands)".
        follows = chain[1] and re.fullmatch(r", and |, | and ", cell[chain[0]:match.start()])
        edits = bool(match[1] or follows)
        chain = (match.end(), edits)
        place, _, rest = (match[3] or "").partition(";")
        inside = SPAN.findall(match[3] or "")
        if SPAN.search(place):
            place = ""
        if place:
            places = project.within(place)
        elif edits or column == "Definition":
            places = [project.root / "crates/model" / ("must-fail" if edits else "specs")]
        else:
            places = [project.root / "crates"]
        if place and not places:
            missing.append(f"({place})")
        home = []
        for name in (word for span in SPAN.findall(match[2]) for word in words(span)):
            named.append(name)
            home = project.where(name, places, edits)
            known = home or (not place and (name in project.crates or "/" in name and (project.root / name).exists()))
            if not known:
                missing.append(f"{name} ({place})" if place else name)
        for name in (word for span in inside for word in words(span)):
            named.append(name)
            if not project.where(name, home):
                missing.append(f"{name}, in brackets")
    bare = NAMES.sub("", cell)
    missing += ["a backtick without its second"] * bare.count("`")
    missing += [f"({place}) behind no name" for place in re.findall(r"\(([^()]*)\)", bare) if project.within(place)]
    return named, missing


def table_rows(lines):
    """The rows of the tables: number of the line, and each cell with its column."""
    heads = []
    for number, line in enumerate(lines, 1):
        if not line.startswith("|"):
            heads = []
            continue
        cells = [cell.strip() for cell in line.strip("|").split("|")]
        if not heads:
            heads = cells
        elif not all(set(cell) <= {"-"} for cell in cells):
            yield number, list(zip(heads, cells, strict=True))


def headed_paragraphs(lines):
    """The same of the headed paragraphs: the lines between two empty ones that begin in bold, and the items of those that follow."""
    found, within = [], False
    for filled, block in itertools.groupby(enumerate(lines, 1), key=lambda line: line[1] != ""):
        if not filled:
            continue
        (number, first), *rest = block
        text = "\n".join([first, *(line.strip() if line.startswith("  ") else line for _, line in rest)])
        if first.startswith("**"):
            found.append((number, [("", text.replace("\n", " "))]))
            within = True
        elif within and first.startswith("- "):
            for item in text[2:].split("\n- "):
                column, _, cell = item.replace("\n", " ").partition(": ")
                found[-1][1].append((column, cell) if cell else ("", item))
        else:
            within = False
    return found


def main(root):
    project = Project(pathlib.Path(root).resolve())
    lines = (project.root / "docs/MAP.md").read_text(encoding="utf-8").splitlines()
    rows, paragraphs = list(table_rows(lines)), headed_paragraphs(lines)
    named, wrong = 0, []
    for number, cells in sorted(rows + paragraphs):
        for column, cell in cells:
            names, missing = check(cell, column, project)
            named += len(names)
            wrong += [(number, cells[0][1], name) for name in missing]
    print(f"map: {len(rows)} rows, {len(paragraphs)} headed paragraphs, {named} names, {len(wrong)} missing")
    for number, row, name in wrong:
        print(f"  line {number}: {name}: {row}")
    return 1 if wrong or not rows else 0


if __name__ == "__main__":
    sys.exit(main(*sys.argv[1:]))
