"""The benchmark's report in Markdown.

    report.py BENCH ARCHIVE [OUTPUT [ROWS]]

OUTPUT gets what is printed, ROWS a row for every case. Times are those that BENCH prints. Instructions are callgrind's, of the second of two calls:
those of the entry and of all that it calls. The hash stands beside mbedTLS's too."""

import csv
import re
import subprocess
import sys
import tempfile

SIDES = {"token": "uaf_", "peer": "peer_"}
WRITERS = ("write_get_info", "write_register", "write_sign", "write_deregister", "write_open_settings")
ENTRIES = ("command", "withdraw", "complete", "signed_part", "read_fields", "hash", *WRITERS)
# What mbedTLS has one function for.
MBEDTLS, MBEDTLS_HASH = "mbedtls", "mbedtls_sha256"
# The kinds of entries, as the stack and the worst ratio are told of each.
COMMAND, WITHDRAWAL, READER, WRITER, HASH = "a command", "a withdrawal", "completion and reader", "a writer", "the hash"
GROUPS = (COMMAND, WITHDRAWAL, READER, WRITER, HASH)
# How the name of a case ends that is a command or a withdrawal on a table, and what heads the column of that kind.
KINDS = {"": "random, 12", ", long names": "random, 128", ", alike": "alike, 12", ", alike, long names": "alike, 128"}
TEXTS = ("latin", "cyrillic", "kana", "mixed")
NAMED = {f", {text}{long}": f"{text}, {size}" for text in TEXTS for long, size in (("", 12), (", long names", 128))}
ON_TABLE = re.compile(rf"(.*), (\d+) records?({'|'.join([*KINDS, *NAMED])})$")
# The case whose KeyIDs and mixed tokens someone would have to choose. It is told beside the worst ratio and not counted in it.
CHOSEN = "GetInfo: 32 records, sums alike"
FIGURES = ["token ns", "peer ns", "token / peer", "floor ns", "token instructions", "peer instructions"]
HASH_FIGURES = ["token ns", "peer ns", "mbedTLS ns", "token / peer", "token / mbedTLS"]
HASH_FIGURES += ["token instructions", "peer instructions", "mbedTLS instructions"]
# The instructions that a processor has for SHA-256; what uses none of them has to do without.
SHA_INSTRUCTION = re.compile(r"\bsha256(rnds2|msg1|msg2)\b")


def lines(*command):
    return subprocess.run(command, check=True, capture_output=True, text=True).stdout.splitlines()


def table(bench, *arguments):
    return list(csv.DictReader(lines(bench, *arguments), delimiter="\t"))


def instructions(bench, side):
    """The count of every case, mbedTLS's of the hashes. Callgrind writes a part each time that `counted` is left, which is twice for a case, and one at
    the end."""
    names = [MBEDTLS_HASH] if side == MBEDTLS else [SIDES[side] + entry for entry in ENTRIES]
    entries = [f"--toggle-collect={name}" for name in names]
    with tempfile.NamedTemporaryFile("r") as out:
        parts = [f"--callgrind-out-file={out.name}", "--combine-dumps=yes", "--dump-after=counted"]
        lines("valgrind", "-q", "--tool=callgrind", *parts, *entries, bench, "calls", side)
        totals = re.findall(r"^totals: (\d+)", out.read(), re.MULTILINE)
    return [int(total) for total in totals[1:-1:2]]


class Row:
    """What was measured of a case."""

    def __init__(self, times, *counts):
        self.case = times["case"]
        self.ns = {side: float(times[f"{side} ns"]) for side in SIDES}
        self.ratio = float(times["token / peer"])
        self.floor = times["floor ns"]
        self.instructions = dict(zip(SIDES, counts))
        self.on_table = ON_TABLE.match(self.case)
        self.group = self.group_of()
        if self.group == HASH:
            self.ns[MBEDTLS], self.mbedtls_ratio = float(times["mbedtls ns"]), float(times["token / mbedtls"])

    def group_of(self):
        if self.case.startswith(("Withdraw", "withdraw:")):
            return WITHDRAWAL
        if self.on_table or self.case.startswith(("refused:", "Register:", "Sign:", CHOSEN)):
            return COMMAND
        if self.case.startswith("hash:"):
            return HASH
        return WRITER if self.case.startswith("write:") else READER

    def figures(self):
        floor = nanoseconds(self.floor) if self.floor else "–"
        counts = [f"{self.instructions[side]:,}" for side in SIDES]
        return [*(nanoseconds(self.ns[side]) for side in SIDES), f"{self.ratio:.2f}", floor, *counts]

    def hash_figures(self):
        counts = [f"{count:,}" for count in self.instructions.values()]
        return [*map(nanoseconds, self.ns.values()), f"{self.ratio:.2f}", f"{self.mbedtls_ratio:.2f}", *counts]


def nanoseconds(time):
    time = float(time)
    return f"{time:,.0f}" if time >= 10 else f"{time:.1f}"


def measured(bench):
    times = table(bench)
    counts = [instructions(bench, side) for side in SIDES]
    if any(len(count) != len(times) for count in counts):
        sys.exit("callgrind's parts are not two to a case")
    rows = [Row(*figures) for figures in zip(times, *counts)]
    hashes = [row for row in rows if row.group == HASH]
    beside = instructions(bench, MBEDTLS)
    if len(beside) != len(hashes):
        sys.exit("callgrind's parts are not two to a hash of mbedTLS's")
    for row, count in zip(hashes, beside):
        row.instructions[MBEDTLS] = count
    return rows


def markdown(head, rows):
    for cells in (head, ["---"] * len(head), *rows):
        yield "| " + " | ".join(cells) + " |"


def listed(rows):
    return markdown(["case", *FIGURES], [[row.case, *row.figures()] for row in rows])


def hashes(rows):
    return markdown(["case", *HASH_FIGURES], [[row.case, *row.hash_figures()] for row in rows if row.group == HASH])


def by_size(rows):
    """The rows of commands and withdrawals on a table, by what is called and number of records, then by kind of table."""
    sizes = {}
    for row in rows:
        if row.on_table:
            called, records, kind = row.on_table.groups()
            sizes.setdefault((called, records), {})[kind] = row
    return sizes.items()


def ratios(kinds, wanted):
    return [f"{kinds[kind].ratio:.2f}" if kind in kinds else "" for kind in wanted]


def on_tables(rows):
    """A line for a command or a withdrawal and a number of records: all figures of the first kind of table, and the ratio of the others."""
    first, *others = KINDS
    cells = [[*size, *kinds[first].figures(), *ratios(kinds, others)] for size, kinds in by_size(rows)]
    return markdown(["call", "records", *FIGURES, *(KINDS[kind] for kind in others)], cells)


def texts(rows):
    """A line for a command or a withdrawal and a number of records: the ratio for names in each text, and of each length."""
    cells = [[*size, *ratios(kinds, NAMED)] for size, kinds in by_size(rows) if kinds.keys() & NAMED.keys()]
    return markdown(["call", "records", *NAMED.values()], cells)


def dearer(rows):
    """How much more a case takes where KeyIDs and mixed tokens are alike than where they are random, and where names are in a text than in ASCII."""
    by_name = {row.case: row for row in rows}
    cells = []
    for one_said, other_said in (("alike", "random"), *((text, "ASCII") for text in TEXTS)):
        mark = f", {one_said}"
        pairs = [(row, by_name[row.case.replace(mark, "")]) for row in rows if mark in row.case and row.group != WRITER]
        for side in SIDES:
            for unit in ("ns", "instructions"):
                most, case = max((getattr(one, unit)[side] / getattr(other, unit)[side], one.case) for one, other in pairs)
                cells.append([f"{one_said} / {other_said}", f"{side}, {unit}", f"{most:.2f}", case])
    return markdown(["compared", "of", "at most", "case"], cells)


def stack(bench, rows):
    depths = list(zip(rows, table(bench, "stack")))
    cells = []
    for group in GROUPS:
        meant = [depth for row, depth in depths if row.group == group]
        sides = [*SIDES, MBEDTLS] if group == HASH else SIDES
        most = [f"{max(int(depth[f'{side} bytes']) for depth in meant):,}" for side in sides]
        cells.append([f"{group}, at most", *most, *([] if group == HASH else [""])])
    return markdown(["stack, bytes", *SIDES, "mbedTLS"], cells)


def worst_of(rows):
    return max(rows, key=lambda row: row.ratio)


def worst_by_group(rows):
    worst = [worst_of(row for row in rows if row.group == group) for group in GROUPS]
    return markdown(["worst ratio", "token / peer", "case"], [[row.group, f"{row.ratio:.2f}", row.case] for row in worst])


def machine(bench):
    with open("/proc/cpuinfo", encoding="utf-8") as processors:
        model = re.search(r"^model name\s*: (.*)", processors.read(), re.MULTILINE)
    [mbedtls] = lines(bench, "version")
    return f"Processor: {model.group(1) if model else 'unknown'}. The peer's compiler: {lines('rustc', '--version')[0]}. The hash beside: {mbedtls}."


def sha_instructions(bench):
    """Whether the benchmark's program, which has token, peer and mbedTLS in it, has instructions for SHA-256 anywhere."""
    found = sum(bool(SHA_INSTRUCTION.search(line)) for line in lines("objdump", "-d", "--no-show-raw-insn", bench))
    return f"instructions made for SHA-256 in the program: {found}" if found else "none of the three has an instruction made for SHA-256"


def text_size(archive):
    return sum(int(line.split()[0]) for line in lines("size", archive)[1:])


def report(bench, archive, rows):
    yield machine(bench)
    yield ""
    yield "Commands and withdrawals, KeyIDs and mixed tokens random, names of 12 bytes; in the last columns the ratio where they are otherwise:"
    yield ""
    yield from on_tables(rows)
    yield ""
    yield "The ratio with names of 12 and of 128 bytes in other texts, KeyIDs and mixed tokens random:"
    yield ""
    yield from texts(rows)
    yield ""
    yield "KeyIDs and mixed tokens of one sum, a Register whose name is cut, much to hash, refused commands and withdrawals, completion and reader:"
    yield ""
    yield from listed([row for row in rows if not row.on_table and row.group not in (WRITER, HASH)])
    yield ""
    yield "The writers of commands:"
    yield ""
    yield from listed([row for row in rows if row.group == WRITER])
    yield ""
    yield f"The hash; {sha_instructions(bench)}:"
    yield ""
    yield from hashes(rows)
    yield ""
    yield from dearer(rows)
    yield ""
    yield from stack(bench, rows)
    yield ""
    yield f"Text of the archive: {text_size(archive):,} bytes."
    yield ""
    counted = [row for row in rows if row.case != CHOSEN]
    yield from worst_by_group(counted)
    yield ""
    worst = worst_of(counted)
    [chosen] = [row for row in rows if row.case == CHOSEN]
    beside = max((row for row in rows if row.group == HASH), key=lambda row: row.mbedtls_ratio)
    yield f"Worst ratio to mbedTLS: {beside.mbedtls_ratio:.2f} ({beside.case})."
    yield ""
    yield f"Worst ratio: {worst.ratio:.2f} ({worst.case}); of KeyIDs and mixed tokens chosen to have one sum: {chosen.ratio:.2f}."


def write(name, text):
    with open(name, "w", encoding="utf-8") as out:
        out.write(text + "\n")


def main(bench, archive, output=None, every=None):
    rows = measured(bench)
    text = "\n".join(report(bench, archive, rows))
    if output:
        write(output, text)
    if every:
        write(every, "\n".join(listed(rows)))
    print(text)


if __name__ == "__main__":
    main(*sys.argv[1:])
