"""Tries tools/record over a stand-in for the program, and its table of files over the calls of crates/case_suite/data.

usage: /usr/bin/python3 -m pytest tools/record_test.py

It needs Debian's package python3-pytest. The stand-in prints what a case gives it as its `--version`, and else does the
commands of the case. Digests are those of FIPS 180-4's examples, or of `sha256sum`.
"""

import importlib
import importlib.machinery
import importlib.util
import json
import os
import re
import shutil
import signal
import subprocess
import sys
from pathlib import Path
from types import ModuleType
from typing import Any

import pytest

sys.dont_write_bytecode = True

suite: Any = importlib.import_module("suite")

TOOL = Path(__file__).resolve().parent / "record"
ABC = "ba7816bf8f01cfea414140de5dae2223b00361a396177a9cb410ff61f20015ad"
EMPTY = "e3b0c44298fc1c149afbf4c8996fb92427ae41e4649b934ca495991b7852b855"
PROGRAM = "1" * 64
VERSION = f"xm_run 1.2.3\ncommit 0123abcd clean\nkit kit-1 logic 1234\nproved 2026-11-30\nprogram sha256={PROGRAM}\n"
STAND_IN = """#!/bin/sh
here=${0%/*}
if [ "$1" = --version ]; then
    cat "$here/version"
    exit
fi
. "$here/does"
"""
USAGE, NO_RECORD = 64, 74


class Place:
    """A folder to run in, and a stand-in in another one."""

    def __init__(self, root: Path) -> None:
        self.folder, self.other = root / "folder", root / "other place"
        self.folder.mkdir()
        self.other.mkdir()
        self.program = self.other / "xm_run"
        self.program.write_text(STAND_IN)
        self.program.chmod(0o755)
        self.states(VERSION)
        self.does("")

    def states(self, version: str) -> None:
        (self.other / "version").write_text(version)

    def does(self, commands: str) -> None:
        (self.other / "does").write_text(commands + "\n")

    def put(self, **files: str) -> None:
        for name, text in files.items():
            (self.folder / name.replace("_out", ".out")).write_text(text)

    def environment(self, **others: str) -> dict[str, str]:
        return {"PATH": os.environ["PATH"], "XM_RUN": str(self.program), **others}

    def tool(self, *words: str | bytes, **others: Any) -> subprocess.CompletedProcess[bytes]:
        given: dict[str, Any] = {"cwd": self.folder, "env": self.environment(), "stdin": subprocess.DEVNULL}
        return subprocess.run([TOOL, *words], capture_output=True, check=False, **{**given, **others})

    def record(self, name: str = "report.txt.json") -> dict[str, Any]:
        found: dict[str, Any] = json.loads((self.folder / name).read_text("utf-8"))
        return found

    def has_record(self) -> bool:
        return any(path.suffix in (".json", ".part") for path in self.folder.iterdir())

    def files(self) -> list[tuple[Any, ...]]:
        """The role, the path, the length and the digest of each file of the record."""
        return [tuple(file.values()) for file in self.record()["files"]]


@pytest.fixture
def place(tmp_path: Path) -> Place:
    return Place(tmp_path)


def refused(place: Place, *words: str | bytes, **others: Any) -> str:
    """The reason why no record is written."""
    done = place.tool(*words, **others)
    assert (done.returncode, done.stdout, place.has_record()) == (NO_RECORD, b"", False)
    found = re.fullmatch("record: no record: (.*)\n", done.stderr.decode())
    assert found
    return found[1]


# The record.


def test_record_has_all_of_a_run(place: Place) -> None:
    place.put(box="abc", words="abc", uart1_out="of an earlier run")
    place.does("printf abc; printf abc >core; printf abc >script; printf abc >uart0.out; echo 'a line' >&2; exit 5")
    done = place.tool("--", "run", "box", "--ticks", "3", "--core", "0=core", "--input", "1=words", "--script", "1=script")
    assert (done.returncode, done.stdout, done.stderr) == (5, b"", b"a line\n")
    record = place.record()
    assert list(record) == [
        "schema", "program", "arguments", "began", "seconds", "status", "signal", "standard_error", "files",
    ]  # fmt: skip
    assert record["program"] == {
        "version": "1.2.3", "commit": "0123abcd", "modified": False, "kit": "kit-1 logic 1234", "proved": True,
        "proved_on": "2026-11-30", "sha256": PROGRAM,
    }  # fmt: skip
    assert record["arguments"] == "run box --ticks 3 --core 0=core --input 1=words --script 1=script".split()
    assert [record[key] for key in ("schema", "status", "signal", "standard_error")] == [1, 5, None, "a line\n"]
    assert record["files"] == [
        {"role": role, "path": path, "length": 3, "sha256": ABC}
        for role, path in [("container", "box"), ("input", "words"), ("report", "report.txt"), ("core 0", "core"),
                           ("script 1", "script"), ("uart 0", "uart0.out")]
    ]  # fmt: skip


def test_record_has_when_the_call_began_and_how_long_it_took(place: Place) -> None:
    place.does("date -u +%s.%3N; sleep 0.1")
    before = subprocess.run(["date", "-u", "+%s.%3N"], capture_output=True, check=True).stdout
    place.tool("--", "gen", "1")
    record = place.record()
    assert re.fullmatch(r"\d{4}-\d\d-\d\dT\d\d:\d\d:\d\d\.\d{3}Z", record["began"])
    began = subprocess.run(["date", "-d", record["began"], "+%s.%3N"], capture_output=True, check=True).stdout
    assert float(before) <= float(began) <= float((place.folder / "report.txt").read_text())
    assert record["seconds"] >= 0.1


def test_report_goes_to_the_file_that_is_named(place: Place) -> None:
    place.does("printf abc")
    assert place.tool("--report", "a report", "--", "gen", "1").returncode == 0
    assert place.record("a report.json")["files"] == [{"role": "report", "path": "a report", "length": 3, "sha256": ABC}]
    assert sorted(path.name for path in place.folder.iterdir()) == ["a report", "a report.json"]


@pytest.mark.parametrize("version, wanted", [
    ("xm_run 1.2\ncommit ab12 modified\nkit k\nnot proved\nprogram none\n", ["1.2", "ab12", True, "k", False, None, None]),
    ("xm_run 1.2\ncommit unknown\nkit k\nproved 2026-01-02\nprogram sha256=" + ABC + "\n",
     ["1.2", None, None, "k", True, "2026-01-02", ABC]),
    ("xm_run unknown\ncommit unknown\nkit none\nnot proved\nprogram none\n", [None, None, None, None, False, None, None]),
    ("something else\n", [None] * 7),
])  # fmt: skip
def test_program_is_what_it_states(place: Place, version: str, wanted: list[object]) -> None:
    place.states(version)
    assert place.tool("--", "gen", "1").returncode == 0
    assert list(place.record()["program"].values()) == wanted


def test_program_that_has_no_version_is_its_file(place: Place) -> None:
    # dash ends with status 2, as the program does.
    shutil.copy("/bin/dash", place.other / "dash")
    digest = subprocess.run(["sha256sum", "/bin/dash"], capture_output=True, check=True).stdout.decode().split()[0]
    assert place.tool("--program", str(place.other / "dash"), "--", "-c", "exit 3").returncode == 3
    assert list(place.record()["program"].values()) == [None] * 6 + [digest]


def test_script_that_has_no_version_is_not_the_program(place: Place) -> None:
    place.program.write_text("#!/bin/sh\nexit 2\n")
    assert place.tool("--", "gen", "1").returncode == 2
    assert list(place.record()["program"].values()) == [None] * 7


# Files of the run, and no others.


def test_refused_call_has_a_record(place: Place) -> None:
    place.put(text="abc", old="of an earlier run")
    place.does("echo 'xm_run: text: magic' >&2; exit 1")
    assert place.tool("--", "xmeformat", "build", "text", "old").returncode == 1
    assert place.record()["standard_error"] == "xm_run: text: magic\n"
    assert place.files() == [("input", "text", 3, ABC), ("report", "report.txt", 0, EMPTY)]


def test_usage_reads_and_writes_nothing(place: Place) -> None:
    place.put(box="abc")
    place.does("exit 2")
    assert place.tool("--", "run", "box", "--ticks", "03").returncode == 2
    assert place.files() == [("report", "report.txt", 0, EMPTY)]


def test_file_that_cannot_be_read_has_no_digest(place: Place) -> None:
    (place.folder / "folder").mkdir()
    place.does("exit 3")
    assert place.tool("--", "xmpack", "build", "none", "o", "0=folder").returncode == 3
    assert place.files() == [("input", "none", None, None), ("input", "folder", None, None), ("report", "report.txt", 0, EMPTY)]


def test_file_is_listed_once_for_what_it_is(place: Place) -> None:
    place.put(box="abc")
    assert place.tool("--", "run", "box", "--ticks", "3", "--input", "0=box", "--input", "1=box").returncode == 0
    assert [file[:2] for file in place.files()] == [("container", "box"), ("input", "box"), ("report", "report.txt")]


@pytest.mark.parametrize("turn", range(5))
def test_uart_with_the_same_bytes_as_before_is_of_the_run(place: Place, turn: int) -> None:
    place.put(image="abc")
    place.does("printf abc >uart0.out")
    place.put(uart0_out="abc", uart7_out="abc")
    place.tool("--", "bare", "image", "5")
    assert [file[0] for file in place.files()] == ["input", "report", "uart 0"]


def test_uart_of_a_command_without_one_is_not_looked_at(place: Place) -> None:
    place.does("printf abc >uart0.out")
    place.tool("--", "gen", "1")
    assert place.files() == [("report", "report.txt", 0, EMPTY)]


def test_saved_machines_of_a_run_are_read_and_written(place: Place) -> None:
    place.put(box="abc", before="abc")
    place.does("printf abc >after")
    assert place.tool("--", *"run box --save after --ticks 3 --from before".split()).returncode == 0
    assert [file[:2] for file in place.files()] == [("container", "box"), ("input", "before"), ("report", "report.txt"), ("saved", "after")]


def test_replay_names_its_partition_once(place: Place) -> None:
    place.put(box="abc", cues="abc", words="abc", flips="abc")
    place.does("printf abc >core")
    words = "alone box 3 cues --core core --upset flips --input words".split()
    assert place.tool("--", *words).returncode == 0
    assert [file[:2] for file in place.files()] == [
        ("container", "box"), ("input", "cues"), ("input", "flips"), ("input", "words"), ("report", "report.txt"), ("core 3", "core"),
    ]  # fmt: skip


def test_file_that_the_run_replaces_has_both_digests(place: Place) -> None:
    place.put(old="abc")
    place.does("printf '' >new; mv new old")
    assert place.tool("--", "xmcparser", "upgrade", "old", "old").returncode == 0
    assert place.files() == [("input", "old", 3, ABC), ("report", "report.txt", 0, EMPTY), ("output", "old", 0, EMPTY)]
    assert place.tool("--check", "report.txt.json").stdout == b"input old: other bytes\n2 of 3 files are as recorded\n"


def test_device_that_is_written_has_no_digest(place: Place) -> None:
    place.put(text="abc")
    assert place.tool("--", "xmcparser", "text", "/dev/null").returncode == 0
    assert place.files()[2] == ("output", "/dev/null", None, None)


# No record.


@pytest.mark.parametrize("change", ["printf abd >text", "printf abc >text", "rm text", "mv text other; printf abd >text"])
def test_file_that_changes_meanwhile_is_named(place: Place, change: str) -> None:
    place.put(text="abc", report="of an earlier run")
    (place.folder / "report.txt.json").write_text("of an earlier run")
    place.does(change + "; exit 1")
    assert refused(place, "--", "flows", "text") == "text: it changed during the run; the program's status is 1"


def test_program_that_changes_meanwhile_is_named(place: Place) -> None:
    place.does("echo 'not proved' >\"$here/version\"")
    assert refused(place, "--", "gen", "1").startswith(f"{place.program}: it changed during the run")


def test_program_may_be_built_meanwhile(place: Place) -> None:
    place.states(VERSION.replace(f"sha256={PROGRAM}", "none"))
    place.does(f"echo 'program sha256={PROGRAM}' >>\"$here/version\"")
    assert place.tool("--", "gen", "1").returncode == 0
    assert place.record()["program"]["sha256"] == PROGRAM


@pytest.mark.parametrize("report, words", [
    ("text", ["flows", "text"]),
    ("./text", ["xmcparser", "text", "o"]),
    ("link", ["flows", "text"]),
    ("o", ["xmcparser", "text", "o"]),
    ("uart3.out", ["bare", "text", "1"]),
    ("c", ["run", "text", "--ticks", "1", "--core", "1=c"]),
])  # fmt: skip
def test_report_is_no_file_of_the_command_line(place: Place, report: str, words: list[str]) -> None:
    place.put(text="abc")
    (place.folder / "link").symlink_to("text")
    assert refused(place, "--report", report, "--", *words) == f"{report}: the command line names this file, too"
    assert (place.folder / "text").read_text() == "abc"


def test_record_is_no_file_of_the_command_line(place: Place) -> None:
    place.put(text="abc")
    why = refused(place, "--report", "r", "--", "xmcparser", "text", "r.json")
    assert why == "r.json: the command line names this file, too"


def test_report_that_is_replaced_is_named(place: Place) -> None:
    place.put(box="abc")
    place.does("printf abc >new; mv new report.txt")
    words = ["run", "box", "--ticks", "1", "--core", "0=/dev/stdout"]
    assert refused(place, "--", *words) == "report.txt: it was replaced during the run; the program's status is 0"


def test_pipe_is_not_read(place: Place) -> None:
    os.mkfifo(place.folder / "pipe")
    assert refused(place, "--", "flows", "pipe") == "pipe: it is no regular file, and its bytes cannot be recorded"


def test_report_is_a_regular_file(place: Place) -> None:
    assert refused(place, "--report", "/dev/null", "--", "gen", "1") == "/dev/null: it is no regular file"


def test_report_that_cannot_be_made_is_named(place: Place) -> None:
    assert refused(place, "--report", "none/r", "--", "gen", "1") == "none/r: No such file or directory"


def test_record_that_cannot_be_written_is_named(place: Place) -> None:
    (place.folder / "report.txt.json.part").mkdir()
    done = place.tool("--", "gen", "1")
    wanted = b"record: no record: report.txt.json.part: Is a directory; the program's status is 0\n"
    assert (done.returncode, done.stderr) == (NO_RECORD, wanted)


def test_stamp_in_the_future_is_named(place: Place) -> None:
    # A clock that was set back, for the tool alone.
    tool = TOOL.read_text().replace("now = os.stat(report).st_ctime_ns", "now = 0")
    (place.other / "record").write_text(tool)
    (place.other / "record").chmod(0o755)
    place.put(image="abc", uart2_out="abc")
    done = subprocess.run([place.other / "record", "--", "bare", "image", "1"], cwd=place.folder, env=place.environment(),
                          capture_output=True, check=False)  # fmt: skip
    assert (done.returncode, done.stderr) == (NO_RECORD, b"record: no record: uart2.out: its time stamp is in the future\n")


# Where the program is.


def test_option_names_the_program_before_the_environment(place: Place) -> None:
    place.does("exit 4")
    assert place.tool("--program", str(place.program), "--", "gen", "1", env=place.environment(XM_RUN="none")).returncode == 4


def test_environment_names_a_program_that_is_not_there(place: Place) -> None:
    assert refused(place, "--", "gen", "1", env=place.environment(XM_RUN="none")) == "none: there is no such program"


@pytest.mark.parametrize("is_checkout", [True, False])
def test_checkout_has_the_program_beside_the_tools(place: Place, tmp_path: Path, is_checkout: bool) -> None:
    own, on_path = tmp_path / "tree", place.other
    shutil.copytree(TOOL.parent, own / "tools", ignore=shutil.ignore_patterns("__pycache__"))
    (own / "xm_run").write_text("#!/bin/sh\nexit 6\n")
    (own / "xm_run").chmod(0o755)
    if is_checkout:
        (own / "crates.txt").touch()
    place.does("exit 5")
    environment = {"PATH": f"{on_path}:{os.environ['PATH']}"}
    done = subprocess.run([own / "tools/record", "--", "gen", "1"], cwd=place.folder, env=environment, check=False)
    assert done.returncode == (6 if is_checkout else 5)


# Signals and standard error.


@pytest.mark.parametrize("number", [signal.SIGINT, signal.SIGTERM, signal.SIGHUP])
def test_signal_ends_the_program_and_is_recorded(place: Place, number: signal.Signals) -> None:
    def obey() -> None:
        # A caller of pytest may have it ignored.
        signal.signal(number, signal.SIG_DFL)

    place.does("echo begun >&2; exec sleep 600")
    with subprocess.Popen([TOOL, "--", "gen", "1"], cwd=place.folder, env=place.environment(), stderr=subprocess.PIPE,
                          preexec_fn=obey) as tool:  # fmt: skip
        assert tool.stderr is not None
        # The line comes while the program runs.
        assert tool.stderr.readline() == b"begun\n"
        tool.send_signal(number)
        assert tool.wait() == 128 + number
    assert [place.record()[key] for key in ("status", "signal")] == [128 + number, number.name]


def test_bytes_that_are_no_text_are_passed_on_and_spelled(place: Place) -> None:
    place.does(r"printf 'a\377%%\303\244\001\n' >&2")
    assert place.tool("--", "gen", "1").stderr == b"a\xff%\xc3\xa4\x01\n"
    assert place.record()["standard_error"] == "a%FF%25\u00e4\u0001\n"


@pytest.mark.parametrize("how", ["2>&-", "2>/dev/full"])
def test_standard_error_that_takes_nothing_changes_nothing(place: Place, how: str) -> None:
    place.does("printf abc; echo line >&2; exit 1")
    call = ["/bin/sh", "-c", f'"$0" -- gen 1 {how}', str(TOOL)]
    done = subprocess.run(call, cwd=place.folder, env=place.environment(), check=False)
    assert done.returncode == 1
    assert place.files() == [("report", "report.txt", 3, ABC)]
    assert place.record()["standard_error"] == "line\n"


# The comparison.


def test_names_of_any_bytes_are_recorded_and_found(place: Place) -> None:
    name = b"a\xff%41\n\xc3\xa4"
    (place.folder / os.fsdecode(name)).write_text("abc")
    assert place.tool("--", "flows", name).returncode == 0
    assert place.record()["arguments"] == ["flows", "a%FF%2541\n\u00e4"]
    assert place.files()[0] == ("input", "a%FF%2541\n\u00e4", 3, ABC)
    assert place.tool("--check", "report.txt.json").stdout == b"2 of 2 files are as recorded\n"


def test_files_that_are_not_as_recorded_are_named(place: Place) -> None:
    place.put(text="abc")
    place.does("printf abc; printf abc >o")
    place.tool("--", "xmcparser", "text", "o")
    place.put(text="abd")
    (place.folder / "o").unlink()
    done = place.tool("--check", "report.txt.json")
    wanted = b"input text: other bytes\noutput o: not there, or not to be read\n1 of 3 files are as recorded\n"
    assert (done.returncode, done.stdout, done.stderr) == (1, wanted, b"")


def test_file_without_a_digest_is_not_compared(place: Place) -> None:
    place.does("exit 3")
    place.tool("--", "flows", "none")
    done = place.tool("--check", "report.txt.json")
    assert (done.returncode, done.stdout) == (0, b"1 of 1 files are as recorded\n")


def test_path_that_is_none_is_named(place: Place) -> None:
    place.put(record=json.dumps({"schema": 1, "files": [{"role": "input", "path": "a%00", "sha256": ABC}]}))
    done = place.tool("--check", "record")
    assert (done.returncode, done.stdout) == (1, b"input a%00: not there, or not to be read\n0 of 1 files are as recorded\n")


@pytest.mark.parametrize("text, why", [
    ("", "it is no record"), ("[]", "it is no record"), ("{}", "it is no record"), ('{"schema": 1}', "it is no record"),
    ('{"schema": 2, "files": []}', "it is of schema 2, and not of 1"),
    ('{"schema": 1, "files": [{"role": "input", "path": "x"}]}', "it is no record"),
    ('{"schema": 1, "files": [{"role": "input", "path": 5, "sha256": "0"}]}', "it is no record"),
])  # fmt: skip
def test_what_is_no_record_is_not_compared(place: Place, text: str, why: str) -> None:
    place.put(record=text)
    done = place.tool("--check", "record")
    assert (done.returncode, done.stdout, done.stderr) == (NO_RECORD, b"", f"record: no record: record: {why}\n".encode())


def test_record_that_is_not_there_is_not_compared(place: Place) -> None:
    done = place.tool("--check", "none")
    assert (done.returncode, done.stderr) == (NO_RECORD, b"record: no record: none: No such file or directory\n")


# The command line.


@pytest.mark.parametrize("words", [
    [], ["gen", "1"], ["--report"], ["--reports", "r", "--", "gen", "1"], ["x", "--", "gen", "1"], ["--check"],
    ["--check", "r", "--", "gen", "1"], ["--rep", "r", "--", "gen", "1"],
])  # fmt: skip
def test_other_command_lines_are_refused(place: Place, words: list[str]) -> None:
    place.does("printf abc >called")
    done = place.tool(*words)
    assert (done.returncode, done.stdout) == (USAGE, b"")
    assert re.fullmatch(r"record: .*; --help prints the command lines\n", done.stderr.decode())
    assert list(place.folder.iterdir()) == []


def test_words_of_the_program_are_its_own(place: Place) -> None:
    place.does('printf "%s\\n" "$@"')
    assert place.tool("--", "--report", "--", "--check", "").returncode == 0
    assert (place.folder / "report.txt").read_text() == "--report\n--\n--check\n\n"


def test_help_is_printed(place: Place) -> None:
    done = place.tool("--help")
    assert done.returncode == 0 and b"usage: tools/record [--report FILE]" in done.stdout


# The table of files, over the calls of the suite: 3,700 cases, each with the files that are there and what its calls do.


@pytest.fixture(scope="module")
def cases() -> list[Any]:
    """All but those with one thing wrong on purpose."""
    return [case for _, cases in suite.books() for case in cases if "differs" not in case.wanted]


@pytest.fixture(scope="module")
def table() -> ModuleType:
    loader = importlib.machinery.SourceFileLoader("record", str(TOOL))
    spec = importlib.util.spec_from_loader("record", loader)
    assert spec is not None
    module = importlib.util.module_from_spec(spec)
    sys.modules["record"] = module
    loader.exec_module(module)
    return module


def names(table: ModuleType, call: list[str], is_read: bool) -> set[str]:
    return {file.path for file in table.files_named(call) if table.is_read(file) == is_read and "uart" not in file.role}


def is_done(case: Any) -> bool:
    return "refused" not in case.wanted and "usage" not in case.wanted and case.wanted.get("status", "Done") == "Done"


def test_table_has_no_file_to_be_read_that_the_suite_does_not_give(cases: list[Any], table: ModuleType) -> None:
    for case in filter(is_done, cases):
        there = set(case.files)
        for call in case.calls:
            assert names(table, call, True) <= there, case.name
            there |= names(table, call, False)


def test_table_has_each_file_that_the_suite_finds_written(cases: list[Any], table: ModuleType) -> None:
    tried = 0
    for case in filter(is_done, cases):
        written = {*case.wanted.get("same", {}), *([case.wanted["output"]] if "output" in case.wanted else [])}
        assert written - set(case.files) <= set().union(*(names(table, call, False) for call in case.calls)), case.name
        tried += len(written)
    assert tried > 100


def test_table_has_each_file_that_the_suite_cannot_read_or_write(cases: list[Any], table: ModuleType) -> None:
    tried = 0
    for case in cases:
        found = re.fullmatch("xm_run: (.+): cannot (read|write)\n", case.wanted.get("err", ""), re.S)
        if found and found[1] != "report":
            assert found[1] in names(table, case.calls[-1], found[2] == "read"), case.name
            tried += 1
    assert tried > 50
