"""Does runs of a campaign, each in a folder of its own, and judges them. It is what the workers of a campaign do.

All that a run needs comes with the campaign as bytes: the program, containers, input words and saved machines. So a worker of another
machine needs no file of this one.
"""

import atexit
import contextlib
import dataclasses
import fcntl
import functools
import hashlib
import os
import shutil
import socket
import subprocess
import tempfile
import threading
import time
from collections.abc import Iterable, Iterator, Mapping
from dataclasses import dataclass, field
from importlib import resources
from pathlib import Path

from xm_tools.beginnings import BOOT, Beginning, lines_of, whole_report
from xm_tools.container import read_container
from xm_tools.expectations import expectations_of
from xm_tools.failure import Unusable
from xm_tools.outcomes import FAILED, Left, Reference, Rules, Verdict
from xm_tools.system import System
from xm_tools.upset_sets import Upset, text_of

PREFIX, LOCK = "xm_campaign-", "lock"
REPORT, ERRORS, UPSETS, COMMAND, SAVED = "report.txt", "errors.txt", "run.upsets", "command.txt", "saved"
UARTS = "uart[0-7].out"
SHARED_MEMORY = "/dev/shm"
ROOM = 1 << 28
# Longer files of a run are kept only where another partition differs.
MOST_KEPT = 1 << 16
# As many words an input has at most.
MOST_WORDS = 4_000_000
# What `keep` has where no folder is to be kept.
NEVER = "none"
# About as many runs without upsets, and files of setups, are kept for the next runs of a worker.
MOST_REFERENCES = 4
MOST_FILES = 256
# What a saved machine costs is measured as the least of so many runs, or of fewer that take so many seconds; the time of ticks by such
# parts of a run, until they take so much longer than none. Less than such a part of a run's time is no gain.
TRIES, LONG, PARTS, CLEAR, LEAST_GAIN = 3, 0.3, (32, 4, 1), 0.02, 0.03
# How other partitions are compared where this is not by the scripts of each run: by core file and lines, and by scripts where these differ.
CORES = "cores"


@dataclass(frozen=True)
class Words:
    """Input words that are generated: a set of so many words from `low` to `high`, by a seed, a name and the set's number."""

    seed: int
    name: str
    number: int
    count: int
    low: int
    high: int

    def is_well(self) -> bool:
        numbers = (self.seed, self.number, self.count, self.low, self.high)
        are_numbers = all(type(number) is int and number >= 0 for number in numbers)
        return are_numbers and self.count <= MOST_WORDS and self.low <= self.high < 1 << 32

    def content(self) -> bytes:
        """Each word is low plus a number of 64 bits of SHAKE-256 of `SEED NAME NUMBER`, modulo how many words there are."""
        drawn = hashlib.shake_256(f"{self.seed} {self.name} {self.number}".encode()).digest(8 * self.count)
        numbers = (int.from_bytes(drawn[at : at + 8], "big") for at in range(0, len(drawn), 8))
        return b"".join((self.low + number % (self.high - self.low + 1)).to_bytes(4, "big") for number in numbers)


@dataclass(frozen=True)
class Setup:
    """What a run is of, but for its upsets: a container by its digest, its ticks, and the input of each partition that has one.

    An input is generated words, or a file by its digest. `labels` says what was varied, and how.
    """

    container: str
    ticks: int
    inputs: tuple[tuple[int, Words | str], ...] = ()
    labels: tuple[tuple[str, str], ...] = ()


def origin_of(setup: Setup) -> Setup:
    """What the runs of a setup have in common with those of other lengths: all that decides what happens before an upset."""
    return Setup(setup.container, 0, setup.inputs)


@dataclass(frozen=True)
class Common:
    """What all runs of a campaign have in common. Files are by their digests; `keep` are the outcomes whose folders are kept.

    `others` says whether other partitions are compared, and how. Saved machines of more than `most_saved` bytes are not kept. `tools`
    is the digest of the tools that the command has, and that its workers have to have.
    """

    name: str
    program: bytes
    files: Mapping[str, bytes]
    expect_name: str = ""
    expect_text: str = ""
    output: tuple[int, ...] | None = None
    outcomes: tuple[str, ...] = ()
    others: bool | str = True
    keep: tuple[str, ...] = ()
    scratch: str | None = None
    tools: str = ""
    most_saved: int = 0


@dataclass(frozen=True)
class Done:
    """How a run ended: what it is judged to be, how long the program took and all the rest, and the files that are kept.

    `begun` is the tick of the saved machine from which it went on, 0 for the boot.
    """

    verdict: Verdict
    seconds: float
    beyond: float
    files: Mapping[str, bytes] = field(default_factory=dict)
    begun: int = 0


@dataclass(frozen=True)
class Case:
    """A run of a setup with upsets, or without. `compares` says that runs of the setup are compared with that without upsets.

    `begins` is the tick of the saved machine from which it may go on: before its upsets, and before its end.
    """

    setup: Setup
    upsets: tuple[Upset, ...]
    compares: bool
    begins: int = 0


@dataclass(frozen=True)
class DoneBatch:
    """How the runs of a batch ended, the digests of the reports without upsets that were needed, and which worker it was.

    `machines` are the digests of the saved machines that came with the batch, by what they are of and their ticks; `why` says why
    another one was not kept.
    """

    done: tuple[Done, ...]
    reports: Mapping[Setup, str]
    worker: str = ""
    machines: Mapping[tuple[Setup, int], str] = field(default_factory=dict)
    why: str = ""


def tools_files() -> dict[str, bytes]:
    """The files of this package, as they are imported, by their names below the package."""
    found = {}
    folders = [("", resources.files(__package__))]
    while folders:
        above, folder = folders.pop()
        for entry in folder.iterdir():
            if entry.is_dir() and entry.name != "__pycache__":
                folders.append((f"{above}{entry.name}/", entry))
            elif entry.name.endswith((".py", ".json", ".html")):
                found[f"{above}{entry.name}"] = entry.read_bytes()
    return dict(sorted(found.items()))


@functools.cache
def tools_digest() -> str:
    return digest_of(b"".join(name.encode() + content for name, content in tools_files().items()))


def digest_of(content: bytes) -> str:
    return hashlib.sha256(content).hexdigest()


def scratch_of(named: str | None) -> str:
    """The folder in which runs have their folders: shared memory where there is room, since a program waits for its disk."""
    if named:
        return named
    if os.access(SHARED_MEMORY, os.W_OK | os.X_OK) and shutil.disk_usage(SHARED_MEMORY).free >= ROOM:
        return SHARED_MEMORY
    return tempfile.gettempdir()


class Room:
    """A folder of its own for a worker, which is locked as long as the worker lives.

    Its lock has its name once it is held, so that no other worker that starts at the same time takes the folder for one that is left.
    """

    def __init__(self, above: str) -> None:
        remove_left_over(above)
        self.path = Path(tempfile.mkdtemp(prefix=PREFIX, dir=above))
        self.lock = open(self.path / f"{LOCK}.new", "wb")
        fcntl.flock(self.lock, fcntl.LOCK_EX)
        os.rename(self.path / f"{LOCK}.new", self.path / LOCK)

    def remove(self) -> None:
        shutil.rmtree(self.path, ignore_errors=True)
        self.lock.close()


def remove_left_over(above: str) -> None:
    """Removes the folders of workers of this machine that were killed: those whose lock nobody holds."""
    for lock in Path(above).glob(f"{PREFIX}*/{LOCK}"):
        with contextlib.suppress(OSError), open(lock, "rb") as file:
            fcntl.flock(file, fcntl.LOCK_EX | fcntl.LOCK_NB)
            shutil.rmtree(lock.parent, ignore_errors=True)


class Bench:
    """A worker's folder, with the program and the files of a campaign, in which it does runs one after the other."""

    def __init__(self, common: Common) -> None:
        self.common = common
        # The program stands on a disk: nothing may be executed in some shared memories.
        self.rooms = [Room(scratch_of(common.scratch)), Room(tempfile.gettempdir())]
        atexit.register(self.remove)
        self.room = self.rooms[0].path
        self.program = str(self.rooms[1].path / "xm_run")
        Path(self.program).write_bytes(common.program)
        os.chmod(self.program, 0o755)
        self.references: dict[Setup, tuple[Reference | None, Done]] = {}
        self.systems: dict[str, System] = {}
        self.judged: dict[str, Rules] = {}
        self.written: dict[Words | str, str] = {}
        self.buffers: dict[int, bytearray] = {}
        self.count = 0

    def remove(self) -> None:
        atexit.unregister(self.remove)
        for room in self.rooms:
            room.remove()

    def path_of(self, source: Words | str) -> str:
        """The file with the content of a digest, or with generated words."""
        if source not in self.written:
            self.count += 1
            path = self.room / f"file{self.count}"
            path.write_bytes(source.content() if isinstance(source, Words) else self.common.files[source])
            self.written[source] = str(path)
        return self.written[source]

    def path_of_machine(self, begun: Beginning) -> str:
        """The file with a saved machine, which has to be the one that was saved."""
        if begun.digest not in self.written:
            if digest_of(begun.machine) != begun.digest:
                raise Unusable(f"the saved machine of tick {begun.tick} is damaged")
            self.count += 1
            path = self.room / f"file{self.count}"
            path.write_bytes(begun.machine)
            self.written[begun.digest] = str(path)
        return self.written[begun.digest]

    def tidy(self) -> None:
        """Removes the files of earlier runs where there are many. It is called before a run has any."""
        if len(self.written) >= MOST_FILES:
            for path in self.written.values():
                os.unlink(path)
            self.written.clear()

    def content(self, path: Path, wanted: bytes | None) -> bytes:
        """The content of a file, which is mostly the one that is wanted: so it is read into room that is there already."""
        if wanted is None:
            return path.read_bytes()
        if len(wanted) not in self.buffers:
            self.buffers[len(wanted)] = bytearray(len(wanted))
        buffer = self.buffers[len(wanted)]
        with open(path, "rb", buffering=0) as file:
            length = os.fstat(file.fileno()).st_size
            if length == len(wanted) and file.readinto(buffer) == length and buffer == wanted:
                return wanted
        return path.read_bytes()

    def system(self, setup: Setup) -> System:
        if setup.container not in self.systems:
            self.systems[setup.container] = read_container("container", self.common.files[setup.container]).system
        return self.systems[setup.container]

    def reference(self, setup: Setup) -> tuple[Reference | None, Done]:
        """The run of a setup without upsets, None where it failed, and how it ended."""
        if setup not in self.references:
            if len(self.references) >= MOST_REFERENCES:
                del self.references[next(iter(self.references))]
            self.references[setup] = self.new_reference(setup)
        return self.references[setup]

    def new_reference(self, setup: Setup) -> tuple[Reference | None, Done]:
        began = time.perf_counter()
        partitions = range(len(self.system(setup).partitions))
        with self.folder() as folder:
            run = Run(self, setup, (), folder)
            why = run.call(partitions, partitions if self.common.others else ())
            reference = None
            try:
                reference = None if why else Reference(run.left(), self.rules(setup))
            except Unusable as reason:
                why = str(reason)
            return reference, self.finished(run, reference.verdict() if reference else Verdict(FAILED, why), began)

    def rules(self, setup: Setup) -> Rules:
        common = self.common
        if setup.container not in self.judged:
            expectations = expectations_of(common.expect_name, common.expect_text, self.system(setup))
            self.judged[setup.container] = Rules(expectations, common.output, common.outcomes)
        return self.judged[setup.container]

    @contextlib.contextmanager
    def folder(self) -> Iterator[Path]:
        """A folder for a run, which is removed after it."""
        self.count += 1
        folder = self.room / f"run{self.count}"
        folder.mkdir()
        try:
            yield folder
        finally:
            for entry in os.scandir(folder):
                os.unlink(entry.path)
            folder.rmdir()

    def do(self, case: Case, begun: Beginning) -> Done:
        """Does a run. One that fails from a saved machine is done again from the boot: how it fails is how the whole run does."""
        done = self.do_from(case, begun)
        return self.do_from(case, BOOT) if done.verdict.outcome == FAILED and begun.tick else done

    def do_from(self, case: Case, begun: Beginning) -> Done:
        """Does a run from a beginning. Where it is compared, the one of its setup without upsets comes first, from the boot."""
        if not case.compares:
            return self.do_alone(case.setup, begun)
        reference, done = self.reference(case.setup)
        if not case.upsets or reference is None:
            return done
        began = time.perf_counter()
        with self.folder() as folder:
            run = Run(self, case.setup, case.upsets, folder, begun)
            struck = {upset.partition for upset in case.upsets}
            others = [number for number in reference.left.scripts if number not in struck]
            why = run.call(sorted({*struck, *others}), others if self.common.others is True else ())
            verdict = run.verdict(reference, why)
            if self.common.others == CORES and verdict.differing:
                run, verdict = run.with_scripts(reference, verdict.differing)
            return self.finished(run, verdict, began)

    def do_alone(self, setup: Setup, begun: Beginning) -> Done:
        """Does a run that is compared with nothing."""
        began = time.perf_counter()
        with self.folder() as folder:
            run = Run(self, setup, (), folder, begun)
            why = run.call((), ())
            try:
                verdict = Verdict(FAILED, why) if why else Reference(run.left(), self.rules(setup)).verdict()
            except Unusable as reason:
                verdict = Verdict(FAILED, str(reason))
            return self.finished(run, verdict, began)

    def finished(self, run: "Run", verdict: Verdict, began: float) -> Done:
        keep = self.common.keep
        is_kept = NEVER not in keep and (bool(verdict.differing) or verdict.outcome in keep)
        files = run.kept(verdict) if is_kept else {}
        return Done(verdict, run.seconds, time.perf_counter() - began - run.seconds, files, run.begun.tick)

    def least(self, origin: Setup, ticks: int) -> int:
        """The tick from which on it is quicker to go on from a saved machine than to come there from the boot, by the processor's time."""
        start, length, whole = self.cost(origin, BOOT), 0, 0.0
        for part in PARTS:
            length = max(1, ticks // part)
            whole = self.cost(dataclasses.replace(origin, ticks=length), BOOT)
            if whole - start >= CLEAR:
                break
        rate, begun = (whole - start) / length, self.begin(origin, length, BOOT)
        if rate <= 0 or not begun.tick:
            return ticks + 1
        reading = self.cost(dataclasses.replace(origin, ticks=length), begun) - start
        return round((max(reading, 0.0) + LEAST_GAIN * (start + rate * ticks)) / rate)

    def cost(self, setup: Setup, begun: Beginning) -> float:
        """The least seconds of the processor that a run takes."""
        found: list[float] = []
        while len(found) < TRIES and sum(found) < LONG:
            with self.folder() as folder:
                run = Run(self, setup, (), folder, begun)
                run.call((), ())
                found.append(run.processor)
        return min(found)

    def begin(self, origin: Setup, tick: int, before: Beginning) -> Beginning:
        """Goes on from a beginning to a later tick, and saves the machine there. Where it is not kept, the beginning stays what it was."""
        with self.folder() as folder:
            run = Run(self, dataclasses.replace(origin, ticks=tick), (), folder, before)
            run.saves = True
            why = run.call((), ())
            if not why and not (folder / SAVED).exists():
                why = "the program saves no machine"
            if why:
                return dataclasses.replace(before, why=why)
            machine = (folder / SAVED).read_bytes()
            found = Beginning(tick, machine, digest_of(machine), lines_of(run.report()), tuple(run.uarts().items()))
            if found.size > self.common.most_saved:
                why = f"the machine of tick {tick} and what was printed before it have {found.size} bytes, more than {self.common.most_saved}"
                return dataclasses.replace(before, why=why)
            return found


class Run:
    """One run in its folder, from the boot or from a saved machine, of which it leaves what the whole run leaves."""

    def __init__(self, bench: Bench, setup: Setup, upsets: tuple[Upset, ...], folder: Path, begun: Beginning = BOOT) -> None:
        self.bench, self.setup, self.upsets, self.folder, self.begun = bench, setup, upsets, folder, begun
        self.cores: tuple[int, ...] = ()
        self.scripts: tuple[int, ...] = ()
        self.saves = False
        self.seconds = self.processor = 0.0

    def words(self) -> list[str]:
        self.bench.tidy()
        words = ["run", self.bench.path_of(self.setup.container), "--ticks", str(self.setup.ticks - self.begun.tick)]
        if self.begun.tick:
            words += ["--from", self.bench.path_of_machine(self.begun)]
        for number, source in () if self.begun.tick else self.setup.inputs:
            words += ["--input", f"{number}={self.bench.path_of(source)}"]
        if self.upsets:
            (self.folder / UPSETS).write_text("".join(upset.line() for upset in self.upsets))
            words += ["--upset", UPSETS]
        for number in self.cores:
            words += ["--core", f"{number}={number}.core"]
        for number in self.scripts:
            words += ["--script", f"{number}={number}.script"]
        return [*words, "--save", SAVED] if self.saves else words

    def call(self, cores: Iterable[int], scripts: Iterable[int]) -> str:
        """Calls the program, and says why it failed, nothing where it did not."""
        self.cores, self.scripts = tuple(cores), tuple(scripts)
        words = [self.bench.program, *self.words()]
        with open(self.folder / REPORT, "wb") as out, open(self.folder / ERRORS, "wb") as errors:
            began = time.perf_counter()
            try:
                called = subprocess.Popen(words, cwd=self.folder, stdin=subprocess.DEVNULL, stdout=out, stderr=errors)
                _, ended, used = os.wait4(called.pid, 0)
                called.returncode = status = os.waitstatus_to_exitcode(ended)
            except OSError as error:
                raise Unusable(f"the program cannot be called: {error}") from None
            self.seconds, self.processor = time.perf_counter() - began, used.ru_utime + used.ru_stime
        if status == 0:
            return ""
        lines = (self.folder / ERRORS).read_text(encoding="utf-8", errors="replace").splitlines()
        why = lines[0] if lines else f"the program ended with {f'status {status}' if status > 0 else f'signal {-status}'}"
        return self.accepted(why)

    def accepted(self, why: str) -> str:
        """Why the program failed, where it is not that it refused the saved machine: that is no outcome of a run."""
        if self.begun.tick:
            _, named, reason = why.partition(f"{self.bench.path_of_machine(self.begun)}: ")
            if named:
                raise Unusable(f"the saved machine of tick {self.begun.tick} is refused: {reason}")
        return why

    def verdict(self, reference: Reference, why: str) -> Verdict:
        """That of the run, which is called and failed where something says why."""
        if why:
            return Verdict(FAILED, why)
        return reference.verdict_of(self.left(reference.left), {upset.partition for upset in self.upsets}, self.upsets[-1].tick)

    def with_scripts(self, reference: Reference, differing: tuple[int, ...]) -> tuple["Run", Verdict]:
        """The run again from the boot, with the scripts of other partitions that differ: did they receive the same?

        All else that it leaves has to be what it left before, from wherever it began.
        """
        whole, left = Run(self.bench, self.setup, self.upsets, self.folder), self.left(reference.left)
        verdict = whole.verdict(reference, whole.call(self.cores, differing))
        if verdict.outcome != FAILED:
            again = whole.left(reference.left)
            if (again.report, again.cores) != (left.report, left.cores):
                raise Unusable(f"a run from tick {self.begun.tick} on is not the one from the boot: {text_of(self.upsets).strip()}")
        whole.seconds += self.seconds
        return whole, verdict

    def report(self) -> bytes:
        """The report of the whole run."""
        return whole_report(self.begun, (self.folder / REPORT).read_bytes())

    def uarts(self) -> dict[str, bytes]:
        """The UARTs' files of the whole run."""
        found = dict(self.begun.uarts)
        for path in sorted(self.folder.glob(UARTS)):
            found[path.name] = found.get(path.name, b"") + path.read_bytes()
        return found

    def left(self, wanted: Left = Left(b"")) -> Left:
        """What the run left; a file that is as that of another run is given as this one's."""
        cores = {number: self.bench.content(self.folder / f"{number}.core", wanted.cores.get(number)) for number in self.cores}
        scripts = {number: self.bench.content(self.folder / f"{number}.script", wanted.scripts.get(number)) for number in self.scripts}
        return Left(self.report(), cores, scripts)

    def kept(self, verdict: Verdict) -> dict[str, bytes]:
        """The files of a run that is kept: long ones only of partitions that differ from the run without upsets."""
        names = {f"{number}.{kind}" for number in verdict.differing for kind in ("core", "script")}
        for name, content in {REPORT: self.report(), **self.uarts()}.items() if self.begun.tick else ():
            (self.folder / name).write_bytes(content)
        found = {}
        for entry in os.scandir(self.folder):
            if entry.name in names or entry.stat().st_size <= MOST_KEPT and not entry.name.endswith((".core", ".script")):
                found[entry.name] = Path(entry.path).read_bytes()
        return found


# The benches of this process: one for each of its threads, by its campaign.
BENCHES: dict[tuple[int, str], Bench] = {}


def bench_of(common: Common) -> Bench:
    key = threading.get_ident(), common.name
    if key not in BENCHES:
        BENCHES[key] = Bench(common)
    return BENCHES[key]


def forget(name: str, scratch: str | None) -> None:
    """Removes the benches of a campaign, once its runs are done, and what is left of workers that were killed."""
    for key in [key for key in BENCHES if key[1] == name]:
        BENCHES.pop(key).remove()
    for above in (scratch_of(scratch), tempfile.gettempdir()):
        remove_left_over(above)


def check_tools(common: Common) -> None:
    if common.tools != tools_digest():
        raise Unusable("a worker has other tools than this command: start the workers again")


def begin(common: Common, origin: Setup, tick: int, before: Beginning) -> Beginning:
    """Saves a machine in this process, as far as a tick from an earlier beginning."""
    check_tools(common)
    return bench_of(common).begin(origin, tick, before)


def do_batch(common: Common, cases: tuple[Case, ...], wanted: tuple[tuple[Setup, int], ...] = (), *begun: Beginning) -> DoneBatch:
    """Does some runs in this process. Of each beginning that comes with them it says for which setup and tick it is."""
    check_tools(common)
    bench = bench_of(common)
    beginnings = dict(zip(wanted, begun))
    done, reports = [], {}
    for case in cases:
        done.append(bench.do(case, beginnings[origin_of(case.setup), case.begins] if case.begins else BOOT))
        reference = bench.reference(case.setup)[0] if case.compares else None
        if reference and case.setup not in reports:
            reports[case.setup] = digest_of(reference.left.report)
    machines = {(origin, one.tick): one.digest for (origin, _), one in beginnings.items() if one.tick}
    why = next((one.why for one in begun if one.why), "")
    return DoneBatch(tuple(done), reports, f"{socket.gethostname()}:{os.getpid()}", machines, why)
