"""The crash test of the demonstration. Started by `kills`, which builds what it needs.

    kills [RUNS [SEED]]

It says first how long it will take, by the time of one run, and while it goes on, on stderr, how far it is. Three parts, each of
which ends with a line that sums it up:

power cuts    SIGKILL loses nothing that was handed to the kernel; a power cut does. So the calls of one run are replayed
              here, and at each of them the disk is looked at in every state that a power cut may leave it in: each change of
              a name since its folder's last fsync made or not, each file as at its last fsync, whole, or written half.
              From one in three of these calls the demonstration is started on such a disk and must end well.
every call    Ends the demonstration by SIGKILL at each call that changes a file, one run for each: before the call, after it
              and, for a write, half way. First on a new state folder, then on one that a crash left, up to where the former
              afternoon is closed. After each kill the demonstration is started once more and must end well.
random        RUNS runs (300) on one state folder, each killed at a random moment of the time that a run takes.

What must hold after each: the token accepts the table, and each record has its key; the table is what the demonstration last
said it is, or that and the one change it was about to make, whole. No response that left has a count above the table's, and
none tells of a key that is taken back.

A withdrawal is such a change, of one record that has not signed: a kill or a power cut in it leaves the table with the record
or the one without it. How many fell into one is counted, from "withdrawing" to "withdrawn"; in the first two parts some must."""

import collections
import concurrent.futures
import itertools
import os
import pathlib
import random
import re
import shutil
import signal
import subprocess
import sys
import tempfile
import time

OUT = pathlib.Path(__file__).resolve().parents[2] / "target" / "demo"
WORKERS = min(4, os.cpu_count() or 1)
DEMO, TABLE_CHECK, KILL_AT = OUT / "demo", OUT / "table_check", OUT / "kill_at.so"
COMPOSITE, AUTHENTICATOR_ASSERTION, KEYID, COUNTERS = 0x1000, 0x280F, 0x2E09, 0x2E0D
EVENT = re.compile(r"^    (stored|counted|removing|removed|withdrawing|withdrawn) ([0-9a-f]{64})(?: ([0-9]+))?$")
BEFORE = {"removed": "removing", "withdrawn": "withdrawing"}  # what is said of a record that goes, by what is said when it is gone


class Violation(Exception):
    """Something that must hold does not."""


class Progress:
    """Says on stderr how far a part is: in a terminal in one line, else in a line every ten seconds."""

    def __init__(self, part, of):
        self.part, self.of, self.done = part, of, 0
        self.every = 0.2 if sys.stderr.isatty() else 10
        self.due = time.monotonic() + self.every

    def __enter__(self):
        return self

    def step(self):
        self.done += 1
        if time.monotonic() < self.due:
            return
        self.due = time.monotonic() + self.every
        self.say(f"{self.part}: {self.done} of {self.of}")

    def say(self, text):
        print(f"\r{text:<72}" if sys.stderr.isatty() else text, end="" if sys.stderr.isatty() else "\n", file=sys.stderr, flush=True)

    def __exit__(self, *_):
        if sys.stderr.isatty():
            self.say("")
            print("\r", end="", file=sys.stderr, flush=True)


# ---- what the demonstration said, and what is on disk


def events(said):
    """The lines of fixed form in what was printed; a last line that was cut off does not count."""
    for line in said.split("\n")[:-1]:
        found = EVENT.match(line)
        if found:
            yield found[1], found[2], int(found[3] or 0)


class Ledger:
    """The records that must be on disk with their counts, oldest first, by what was said so far."""

    def __init__(self, records=()):
        self.records, self.gone, self.going, self.taken_back = dict(records), set(), {}, set()

    def hear(self, said):
        for word, key, count in events(said):
            if word == "withdrawing":
                if self.going or self.records.get(key) != 0:
                    raise Violation("more is taken back than one record that has not signed")
                self.taken_back.add(key)
            if word in BEFORE.values():
                self.going[key] = word
            elif word in BEFORE:
                if self.going.get(key) != BEFORE[word]:
                    raise Violation(f"{word} without a word before")
                del self.records[key], self.going[key]
                self.gone.add(key)
            else:
                self.records[key] = count

    def in_withdrawal(self):
        return "withdrawing" in self.going.values()

    def check(self, table):
        """The table is the one last spoken of, or one change further; counts go up by one, and nothing changes places."""
        missing = [key for key in self.records if key not in table]
        new = [key for key in table if key not in self.records]
        raised = [key for key in table if key in self.records and table[key] != self.records[key]]
        if self.gone & set(table):
            raise Violation("a removed record is in the table")
        if missing and set(missing) != set(self.going):
            raise Violation("a stored record is missing")
        if any(table[key] != self.records[key] + 1 for key in raised) or any(table[key] != 0 for key in new):
            raise Violation("a wrong count")
        if bool(missing) + len(new) + len(raised) > 1:
            raise Violation("more than one change that was not spoken of")
        if [key for key in table if key in self.records] != [key for key in self.records if key in table]:
            raise Violation("another order of records")

    def settle(self, table):
        """What is on disk after a crash is what the next start finds."""
        self.gone |= set(self.records) - set(table)
        self.records, self.going = dict(table), {}


def table_of(state):
    """KeyID and count of each record, if the token accepts the table and each record has its key."""
    got = subprocess.run([TABLE_CHECK, state], capture_output=True, text=True)
    if got.returncode != 0:
        raise Violation(got.stderr.strip())
    return {key: int(count) for key, count in (line.split() for line in got.stdout.splitlines())}


def tlvs(data):
    """The tags and values in a run of TLVs, those that hold others opened; what does not fit is left out."""
    at = 0
    while at + 4 <= len(data):
        tag, size = (int.from_bytes(data[at + i : at + i + 2], "little") for i in (0, 2))
        value = data[at + 4 : at + 4 + size]
        if len(value) < size:
            return
        if tag & COMPOSITE or tag == AUTHENTICATOR_ASSERTION:
            yield from tlvs(value)
        else:
            yield tag, value
        at += 4 + size


def check_responses(state, table, taken_back):
    """A count is on disk before a signature over it leaves; a key that is taken back is in no response."""
    for path in [*state.glob("responses/register-*.bin"), *state.glob("responses/sign-*.bin")]:
        fields = dict(tlvs(path.read_bytes()))
        key, count = fields.get(KEYID, b"").hex(), int.from_bytes(fields.get(COUNTERS, b""), "little")
        if key in table and count > table[key]:
            raise Violation("a response left with a count above the table's")
        if key in taken_back:
            raise Violation("a response tells of a key that is taken back")


def check_disk(state, ledger):
    table = table_of(state)
    ledger.check(table)
    check_responses(state, table, ledger.taken_back)
    return table


# ---- running it


def said_in(out):
    """What was printed, a letter for each byte: a kill may cut a name inside a letter, and KILL_LOG counts bytes."""
    return out.read_bytes().decode("latin-1")


def run(state, **settings):
    """Runs the demonstration to its end, or to that which KILL_AT sets; gives exit status and output."""
    environment = dict(os.environ, **settings)
    if settings:
        environment["LD_PRELOAD"] = str(KILL_AT)
    out = state.parent / (state.name + ".out")
    with open(out, "w") as file:
        status = subprocess.run([DEMO, "-v", state], stdout=file, stderr=subprocess.PIPE, env=environment).returncode
    return status, said_in(out)


def check_recovery(state, ledger):
    """The next afternoon ends well, with Ann's record only, and with nothing in the folder that is not needed."""
    status, said = run(state)
    if status != 0:
        raise Violation(f"the next start ended with status {status}")
    ledger.hear(said)
    table = check_disk(state, ledger)
    needed = {"attestation.cert", "attestation.key", "lock", "responses", "table", *(key + ".key" for key in table)}
    if list(table.values()) != [2] or {path.name for path in state.iterdir()} != needed:
        raise Violation("the next start left scraps")


def tally(number, in_withdrawal):
    """So many of something, and how many of them fell into a withdrawal."""
    return collections.Counter(all=number, withdrawal=number * in_withdrawal)


# ---- every call


def kill_once(folder, base, at, how):
    state = folder / f"{at}-{how}"
    ledger = Ledger(table_of(base))
    if base.exists():
        shutil.copytree(base, state)
    status, said = run(state, KILL_AT=str(at), KILL_HOW=how)
    if status != -signal.SIGKILL:
        raise Violation(f"call {at}, {how}: not killed, status {status}")
    try:
        ledger.hear(said)
        kill = tally(1, ledger.in_withdrawal())
        ledger.settle(check_disk(state, ledger))
        check_recovery(state, ledger)
    except Violation as problem:
        raise Violation(f"call {at}, {how}: {problem}")
    shutil.rmtree(state)
    (folder / f"{at}-{how}.out").unlink()
    return kill


Call = collections.namedtuple("Call", "printed name paths")
Run = collections.namedtuple("Run", "state calls said")


def logged_run(folder, base, name):
    """One whole run that logs its calls."""
    state, log = folder / name, folder / (name + ".log")
    if base.exists():
        shutil.copytree(base, state)
    status, said = run(state, KILL_LOG=str(log))
    if status != 0:
        raise Violation(f"a run without a kill ended with status {status}")
    rows = (line.split("\t") for line in log.read_text().splitlines())
    return Run(state, [Call(int(row[0]), row[1], row[2:]) for row in rows], said)


def crashed_state(folder, calls):
    """A folder as a crash leaves it: many records, a key without one, and a new table that is half written."""
    writes = [i for i, call in enumerate(calls) if call.name == "write" and call.paths[0].endswith("/table.new")]
    if not writes:
        raise Violation("no table is written beside the old one")
    fullest = max(writes, key=lambda i: len(calls[i].paths[1]))
    state = folder / "crashed"
    run(state, KILL_AT=str(fullest + 1), KILL_HOW="half")
    if len(table_of(state)) != 31 or not (state / "table.new").exists():
        raise Violation("the crashed state is not as it was meant to be")
    return state


def kill_points(calls):
    for at, call in enumerate(calls, 1):
        yield at, "before"
        yield at, "after"
        if call.name == "write":
            yield at, "half"


def until_registration(calls):
    first = next(i for i, call in enumerate(calls) if call.name == "create" and call.paths[0].endswith(".key.new"))
    return calls[: first + 1]


def every_call(folder, base, calls, progress):
    kills = collections.Counter()
    with concurrent.futures.ThreadPoolExecutor(WORKERS) as pool:
        waiting = [pool.submit(kill_once, folder, base, at, how) for at, how in kill_points(calls)]
        try:
            for one in waiting:
                kills += one.result()
                progress.step()
        except Violation:
            pool.shutdown(cancel_futures=True)
            raise
    return kills


# ---- power cuts


class File:
    """What is surely on disk of a file, and what was written."""

    def __init__(self, sure=b""):
        self.sure = self.now = sure

    def may_be(self):
        return {self.sure, self.now, self.now[: len(self.now) // 2]} if self.sure != self.now else {self.now}


class Disk:
    """The names in the state folder that are surely on disk, and the changes since, of which a power cut may keep any."""

    def __init__(self, base, state):
        """base: the folder as the run found it, if there was one; state: where the run had it."""
        self.state, self.pending = str(state), []
        files = [path for path in base.iterdir() if path.is_file()] if base.exists() else []
        self.sure = {path.name: File(path.read_bytes()) for path in files}
        self.now = dict(self.sure)

    def name_of(self, path):
        folder, name = os.path.split(path)
        return name if folder == self.state else None

    def change(self, name, file):
        """The name stands for this file from now on; None: for none."""
        self.pending.append((name, file))
        self.apply(self.now, [(name, file)])

    @staticmethod
    def apply(names, changes):
        for name, file in changes:
            if file is None:
                names.pop(name, None)
            else:
                names[name] = file
        return names

    def take(self, call):
        names = [self.name_of(path) for path in call.paths if path.startswith("/")]
        if call.name == "fsync" and call.paths[0] == self.state:
            self.sure, self.pending = dict(self.now), []
        elif not names or None in names:
            return
        elif call.name == "create" and names[0] not in self.now:
            self.change(names[0], File())
        elif call.name == "write":
            self.now[names[0]].now += bytes.fromhex(call.paths[1])
        elif call.name == "fsync":
            self.now[names[0]].sure = self.now[names[0]].now
        elif call.name == "unlink":
            self.change(names[0], None)
        elif call.name == "rename":
            # one change of two names: a rename is whole or not at all
            file = self.now[names[0]]
            self.pending.append((names, file))
            self.apply(self.now, [(names[0], None), (names[1], file)])

    def images(self):
        """Every state that a power cut may leave: names with their bytes."""
        for kept in itertools.product((False, True), repeat=len(self.pending)):
            names = dict(self.sure)
            for (name, file), keep in zip(self.pending, kept):
                if keep and isinstance(name, list):
                    self.apply(names, [(name[0], None), (name[1], file)])
                elif keep:
                    self.apply(names, [(name, file)])
            choices = [[(name, data) for data in file.may_be()] for name, file in names.items()]
            yield from (dict(image) for image in itertools.product(*choices))


def write_image(folder, image):
    shutil.rmtree(folder, ignore_errors=True)
    folder.mkdir()
    for name, data in image.items():
        (folder / name).write_bytes(data)
    return folder


class ImageCheck:
    """Checks images of the disk in a folder of its own; the table and keys of no two that are alike twice."""

    def __init__(self, folder, whole):
        self.folder, self.seen = folder, {}
        self.attestation = {name: (whole / name).read_bytes() for name in ("attestation.key", "attestation.cert")}

    def table_of(self, image):
        keys = {value.hex() + ".key" for tag, value in tlvs(image.get("table", b"")) if tag == KEYID}
        wanted = {name: data for name, data in image.items() if name == "table" or name in keys}
        frozen = frozenset(wanted.items())
        if frozen not in self.seen:
            self.seen[frozen] = table_of(write_image(self.folder, wanted))
        return self.seen[frozen]

    def check(self, image, ledger):
        ledger.check(self.table_of(image))
        if "attestation.cert" in image and any(image.get(name) != data for name, data in self.attestation.items()):
            raise Violation("a certificate without its key, or not whole")

    def recover(self, image, ledger):
        state = write_image(self.folder, image)
        ledger.settle(table_of(state))
        check_recovery(state, ledger)


def power_cuts(folder, base, run_of, chance, progress):
    """At each call: what the disk may be, against what had been said just after it and just before the next one. One of these
    images at every third call, by chance, is started on."""
    disk, check, images = Disk(base, run_of.state), ImageCheck(folder / "image", run_of.state), collections.Counter()
    known = table_of(base)
    for i, call in enumerate(run_of.calls):
        disk.take(call)
        for printed in {call.printed, run_of.calls[min(i + 1, len(run_of.calls) - 1)].printed}:
            ledger = Ledger(known)
            ledger.hear(run_of.said[:printed])
            may_be = list(disk.images())
            images += tally(len(may_be), ledger.in_withdrawal())
            try:
                for image in may_be:
                    check.check(image, ledger)
                if i % 3 == 0:
                    check.recover(chance.choice(may_be), ledger)
            except Violation as problem:
                raise Violation(f"power cut after call {i + 1}, {call.name}: {problem}")
        progress.step()
    return images


# ---- random moments


def run_killed(state, out, delay):
    """Gives whether the kill came before the end."""
    with open(out, "w") as file:
        process = subprocess.Popen([DEMO, "-v", state], stdout=file, stderr=subprocess.PIPE)
        time.sleep(delay)
        process.kill()
        message = process.communicate()[1].decode().strip()
    if process.returncode not in (0, -signal.SIGKILL):
        raise Violation(f"status {process.returncode}: {message}")
    return process.returncode != 0


def running_time(state):
    """The middle one of three, so that one slow flush does not move all kills."""
    times = []
    for _ in range(3):
        begun = time.monotonic()
        run(state)
        times.append(time.monotonic() - begun)
    return sorted(times)[1]


def random_moments(folder, runs, whole, chance, progress):
    """whole: how long a run takes in this folder."""
    state, out, ledger, kills = folder / "state", folder / "out", Ledger(), collections.Counter()
    for i in range(runs):
        delay = chance.uniform(0, 1.1 * whole)
        try:
            killed = run_killed(state, out, delay)
            ledger.hear(said_in(out))
            kills += tally(killed, ledger.in_withdrawal())
            ledger.settle(check_disk(state, ledger))
        except Violation as problem:
            raise Violation(f"run {i + 1}, killed after {1000 * delay:.1f} ms: {problem}")
        progress.step()
    check_recovery(state, ledger)
    return kills


# ---- all of it


def minutes(seconds):
    return f"{seconds / 60:.0f} min" if seconds >= 90 else f"{seconds:.0f} s"


def require_withdrawals(part, tallied):
    if not tallied["withdrawal"]:
        raise Violation(f"{part}: none fell into a withdrawal")


def main():
    runs = int(sys.argv[1]) if len(sys.argv) > 1 else 300
    seed = int(sys.argv[2]) if len(sys.argv) > 2 else 1
    memory = "/dev/shm" if os.path.isdir("/dev/shm") else None
    folder = pathlib.Path(tempfile.mkdtemp(prefix="kills-", dir=memory))  # where the disk plays no part
    disk = OUT / "kills"
    shutil.rmtree(disk, ignore_errors=True)
    disk.mkdir(parents=True)
    try:
        none = folder / "none"
        first = logged_run(folder, none, "first")
        crashed = crashed_state(folder, first.calls)
        second = logged_run(folder, crashed, "second")
        chance = random.Random(seed)
        calls, closing = len(first.calls) + len(second.calls), until_registration(second.calls)
        points = len([*kill_points(first.calls), *kill_points(closing)])
        # By a run in memory and one on the disk; the factors, starts for each call, kill and random run, were measured.
        quick, whole = running_time(folder / "timed"), running_time(disk / "timed")
        print(f"kills: about {minutes(quick * (0.9 * calls + 3 * points / WORKERS) + whole * 0.7 * runs)}", flush=True)

        with Progress("power cuts: calls", calls) as progress:
            images = power_cuts(folder, none, first, chance, progress) + power_cuts(folder, crashed, second, chance, progress)
        require_withdrawals("power cuts", images)
        print(f"power cuts: at {calls} calls, {images['all']} images of the disk, {images['withdrawal']} in a withdrawal", flush=True)
        with Progress("every call: kills", points) as progress:
            kills = every_call(folder, none, first.calls, progress) + every_call(folder, crashed, closing, progress)
        require_withdrawals("every call", kills)
        print(
            f"every call: {len(first.calls)} on a new folder, {len(closing)} on a crashed one; {kills['all']} kills, "
            f"{kills['withdrawal']} in a withdrawal", flush=True
        )
        with Progress("random: runs", runs) as progress:
            killed = random_moments(disk, runs, whole, chance, progress)
        print(
            f"random: {runs} runs of {1000 * whole:.0f} ms each, {killed['all']} killed before the end, "
            f"{killed['withdrawal']} in a withdrawal; seed {seed}"
        )
    except Violation as problem:
        print(f"kills: FAILED: {problem}. The state folders are in {folder} and {disk}")
        return 1
    shutil.rmtree(folder)
    shutil.rmtree(disk)
    kills += killed
    print(
        f"kills: {kills['all']} kills and {images['all']} power cuts, {kills['withdrawal']} and {images['withdrawal']} of them in a "
        "withdrawal, no violation"
    )
    return 0


if __name__ == "__main__":
    sys.exit(main())
