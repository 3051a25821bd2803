"""The header's declarations and constants against the source's: declared.py HEADER CRATES

Each exported function of the Rattle source must be declared in the header, and no other, with the parameters that its own stand for, in their
order and with their names: a slice of bytes is a pointer and a size, one of lengths a pointer and a count, a number lent to be written a pointer,
an array lent to be written one of as many elements; a function that gives nothing is void. What is exported (token_c) must have the parameters and
the clauses of the entry of that name (token), word for word, and each entry must be exported.
The header's lists of tags and of statuses must have the names and numbers of the source's, and no others; its refusals and those of its limits that
the source names, the same numbers."""

import pathlib
import re
import sys

# The source's constants and variants, and what they are called in the header.
REFUSALS = {
    "SHORT_OUTPUT": "OUTPUT", "BROKEN_TABLE": "TABLE", "NO_COMMAND": "COMMAND", "WRONG_LENT": "LENT", "NOT_WRITTEN": "BYTES",
    "BAD_FIELD": "FIELD", "NOT_WITHDRAWABLE": "WITHDRAWAL",
}
LIMITS = {
    "fields/src/lib.rt": {"MAX_COMMAND": "MOST_COMMAND", "LEAST_OUTPUT": "LEAST_RESPONSE"},
    "stored_table/src/records.rt": {"MAX_STORED": "LEAST_TABLE", "MAX_RECORDS": "MOST_RECORDS", "MAX_OWN": "MOST_OWN"},
    "response_reader/src/readings.rt": {"MOST_FIELDS": "MOST_FIELDS"},
}
NUMBERS = {"u8": "uint8_t", "u16": "uint16_t", "u32": "uint32_t", "usize": "size_t"}


def in_c(name, kind, numbers):
    """A parameter of the source as C declares it, with the number of an array's elements; a constant's is among `numbers`."""
    name = re.sub("_len$", "_length", name)
    if kind == "&[u8]":
        return [f"const uint8_t *{name}", f"size_t {name}_size"]
    if kind == "&mut [u8]":
        return [f"uint8_t *{name}", f"size_t {name}_size"]
    if kind == "&[usize]" and name.endswith("_sizes"):
        return [f"const size_t *{name}", f"size_t {name.removesuffix('_sizes')}_count"]
    if array := re.fullmatch(r"&mut \[(\w+); (\w+)\]", kind):
        return [f"{NUMBERS[array[1]]} {name}[{numbers.get(array[2], array[2])}]"]
    if number := re.fullmatch(r"&mut (\w+)", kind):
        return [f"{NUMBERS[number[1]]} *{name}"]
    return [f"{NUMBERS[kind]} {name}"]


def stated(source):
    """The public functions that promise something: parameters, result and clauses, whatever the layout."""
    for match in re.finditer(r'^pub (?:extern "C" )?fn (\w+)(\(.*?)^\{', source, re.M | re.S):
        if "ensures" in match[2]:
            yield match[1], " ".join(re.findall(r"[\w.]+|[^\w\s]", match[2])).replace(", )", " )")


def split(parameters):
    return [" ".join(p.split()) for p in parameters.split(",") if p.strip()]


def exported(source, numbers):
    for match in re.finditer(r'#\[unsafe\(no_mangle\)\]\s*pub extern "C" fn (\w+)\((.*?)\)(?:\s*->\s*(\w+))?', source, re.S):
        gives = NUMBERS[match[3]] if match[3] else "void"
        yield match[1], (gives, [c for p in split(match[2]) for c in in_c(*p.split(": ", 1), numbers)])


def declared(header, numbers):
    text = re.sub(r"/\*.*?\*/", "", header, flags=re.S)
    text = re.sub(r"\[UAF_(\w+)\]", lambda size: f"[{numbers.get(size[1], size[1])}]", text)
    for match in re.finditer(r"^(\w+) (\w+)\((.*?)\);", text, re.M | re.S):
        yield match[2], (match[1], split(match[3]))


def constants(source):
    """The numbers that a source file names: its constants, and by their names in capitals the variants that have a number."""
    named = re.findall(r"^(?:pub )?const (\w+): \w+ = (0x\w+|\d+);", source, re.M)
    variants = re.findall(r"^    ([A-Z]\w*) = (0x\w+|\d+),", source, re.M)
    named += [(re.sub(r"(?<!^)(?=[A-Z])", "_", name).upper(), number) for name, number in variants]
    return {name: int(number, 0) for name, number in named}


def listed(header, name):
    """The rows X(NAME, number) of a list of the header."""
    body = re.search(rf"^#define {name}\(X\) *((?:.*\\\n)*.*)", header, re.M)
    return {row: int(number, 0) for row, number in re.findall(r"X\((\w+), (\w+)", body[1])} if body else {}


def limits(header):
    return {name: int(number) for name, number in re.findall(r"^#define UAF_(\w+) (\d+)", header, re.M)}


def renamed(numbers, names):
    return {name: numbers.get(old) for old, name in names.items()}


def compare(what, here, there, sides=("header", "source")):
    """Says in what the header differs from the source, or another side from its own; how much of it there is, and how much differs."""
    wrong = [name for name in sorted(here.keys() | there.keys()) if here.get(name) != there.get(name)]
    for name in wrong:
        print(f"{name}\n  {sides[0]}: {here.get(name)}\n  {sides[1]}: {there.get(name)}")
    print(f"{sides[0]}: {len(here)} {what}, {len(wrong)} other than the {sides[1]}'s")
    return 0 if there and not wrong else 1


def main(header, crates):
    header = pathlib.Path(header).read_text(encoding="utf-8")
    source = {path.relative_to(crates).as_posix(): path.read_text(encoding="utf-8") for path in pathlib.Path(crates).glob("*/src/*.rt")}
    numbers = {path: constants(text) for path, text in source.items()}
    known = {name: number for names in numbers.values() for name, number in names.items()}
    functions, exports, entries = {}, {}, {}
    for path, text in source.items():
        if path.startswith("token_c/"):
            functions.update(exported(text, known))
            exports.update(stated(text))
        elif path.startswith("token/") and path != "token/src/told.rt":
            entries.update(stated(text))
    refusals = numbers.get("fields/src/refusals.rt", {})
    bounds, named = {}, limits(header)
    for path, names in LIMITS.items():
        bounds.update(renamed(numbers.get(path, {}), names))
    return max(
        compare("declarations", dict(declared(header, named)), functions),
        compare("promises", exports, entries, ("token_c", "token")),
        compare("tags", listed(header, "UAF_TAGS"), numbers.get("fields/src/tags.rt", {})),
        compare("statuses", listed(header, "UAF_STATUSES"), numbers.get("replies/src/status.rt", {})),
        compare("refusals", listed(header, "UAF_REFUSALS"), {REFUSALS.get(name, name): n for name, n in refusals.items()}),
        compare("limits", {name: named.get(name) for name in bounds}, bounds),
    )


if __name__ == "__main__":
    sys.exit(main(*sys.argv[1:]))
