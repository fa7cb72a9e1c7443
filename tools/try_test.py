"""Tries tools/try with a stand-in for the program, over a folder of cases of each kind.

usage: /usr/bin/python3 -m pytest tools/try_test.py
"""

import importlib.util
import subprocess
import sys
import time
from importlib.machinery import SourceFileLoader
from pathlib import Path
from typing import Any

import pytest

TOOL = Path(__file__).resolve().parent / "try"


def loaded() -> Any:
    loader = SourceFileLoader("try_cases", str(TOOL))
    spec = importlib.util.spec_from_loader("try_cases", loader)
    assert spec is not None
    module = importlib.util.module_from_spec(spec)
    sys.modules["try_cases"] = module
    loader.exec_module(module)
    return module


tool = loaded()

# Says a line of its own as the script does, and answers in the manner of the program.
STAND_IN = r"""#!/bin/bash
echo 'stand-in: not proved' >&2
[[ -e $(dirname "$0")/built ]] || { touch "$(dirname "$0")/built"; echo 'stand-in: builds' >&2; }
case $1 in
    say) printf '%s' "$2" ;;
    copy) cp "$2" "$3" && echo ok ;;
    drop) rm "$2" ;;
    refuse) echo "xm_run: $2: short" >&2; exit 1 ;;
    unread) echo "xm_run: $2: cannot read" >&2; exit 3 ;;
    lasts) printf done ;;
    *) echo 'xm_run: usage' >&2; exit 2 ;;
esac
"""
WORKED = """
[[file]]
name = "a"
text = "abc"
"""
# The md5 of `hi` is that of `printf hi | md5sum`.
CASES = """
[[file]]
name = "b"
of = "a"
append_hex = "64"

[[group]]
name = "right"
file = ["a"]
case = [
  { shows = "a report", call = "say hi", out = "hi" },
  { shows = "its digest", call = "say hi", out_md5 = "49f68a5c8493ec2c0bf489821c21fc3b" },
  { shows = "its beginning", call = "say hi", out_begins = "h" },
  { shows = "words", words = ["say", "a  b"], out = "a  b" },
  { shows = "usage", call = "nothing", usage = true },
  { shows = "a refusal", call = "refuse a", refused = "short", of_file = "a" },
  { shows = "another status of a refusal", call = "unread a", refused = "cannot read", of_file = "a", status = "ReadFault" },
  { shows = "a status and a line", call = "unread z", status = "ReadFault", err = "xm_run: z: cannot read\\n" },
  { shows = "a copy", calls = ["copy a x", "copy x y"], out = "ok\\n", same = { x = "a", y = "a" } },
  { shows = "a file of another case file", call = "copy b c", file = ["b"], out = "ok\\n", same = { c = "b" } },
  { shows = "a file under another name", call = "copy z c", file = ["z=b"], out = "ok\\n", same = { c = "b" } },
]

[[group]]
name = "wrong answers"
file = ["a"]
case = [
  { shows = "another report", call = "say hi", out = "ho" },
  { shows = "no report", call = "say hi" },
  { shows = "another digest", call = "say hi", out_md5 = "49f68a5c8493ec2c0bf489821c21fc3c" },
  { shows = "another beginning", call = "say hi", out_begins = "o" },
  { shows = "another status", call = "say hi", out = "hi", status = "NoMemory" },
  { shows = "no usage", call = "say hi", out = "hi", usage = true },
  { shows = "another refusal", call = "refuse a", refused = "long", of_file = "a" },
  { shows = "another line", call = "unread z", status = "ReadFault", err = "xm_run: y: cannot read\\n" },
  { shows = "another copy", call = "copy a x", out = "ok\\n", same = { x = "b" } },
  { shows = "a file that is written over", call = "copy b a", file = ["a", "b"], out = "ok\\n" },
  { shows = "a file that is there", call = "say hi", out = "hi", absent = ["a"] },
  { shows = "a file that goes", call = "drop a", same = { z = "a" } },
  { shows = "an earlier call that is refused", calls = ["refuse a", "say hi"], out = "hi" },
]

[[group]]
name = "outputs"
call = "copy a x"
output = "x"
file = ["a"]
before = ["copy a before"]
case = [
  { shows = "it is written", out = "ok\\n", same = { before = "a" } },
  { shows = "it is made", make = { name = "a", text = "own" }, out = "ok\\n" },
  { shows = "it is not written", call = "say ok", out = "ok" },
  { shows = "it is written, and is not to be", call = "copy a x", out = "ok\\n", status = "Refused" },
]

[[group]]
name = "differing"
differs = true
case = [
  { shows = "one that differs", call = "say hi", out = "ho" },
  { shows = "one that holds", call = "say hi", out = "hi" },
]

[[group]]
name = "devices"
case = [
  { shows = "steps alone", call = "say hi", out = "hi", fails = { out_step = 1, err_step = 3 } },
  { shows = "usage without a device", call = "nothing", usage = true, fails = { files = [0], out = [0] } },
  { shows = "a store", call = "say hi", out = "hi", fails = { files = [0] } },
  { shows = "a sink", call = "say hi", out = "hi", fails = { out = [0] } },
  { shows = "a sink that takes nothing", call = "say hi", out = "hi", fails = { out_step = 0 } },
  { shows = "the error output", call = "nothing", usage = true, fails = { err_step = 0 } },
  { shows = "resets", call = "say hi", out = "hi", resets = [{ tick = 1, mode = "cold" }] },
  { shows = "lengths", call = "say hi", out = "hi", lengths = 3 },
  { shows = "no words", words = [], usage = true },
]
"""
SLOW = """
[[group]]
name = "slow"
case = [
  { shows = "it takes longer than there is", call = "lasts 2000", out = "done" },
  { shows = "it takes longer than at first", call = "lasts 100", out = "done" },
  { shows = "it takes no time", call = "say hi", out = "hi" },
]
"""
WRONG = [
    "wrong answers: another report: report: wanted 'ho', got 'hi'",
    "wrong answers: no report: report: wanted '', got 'hi'",
    "wrong answers: another digest: md5 of the report: wanted '49f68a5c8493ec2c0bf489821c21fc3c', got '49f68a5c8493ec2c0bf489821c21fc3b'",
    "wrong answers: another beginning: beginning of the report: wanted 'o', got 'h'",
    "wrong answers: another status: status: wanted 6 (NoMemory), got 0",
    "wrong answers: no usage: status: wanted 2 (Usage), got 0",
    "wrong answers: no usage: standard error: wanted 'xm_run: usage\\n', got ''",
    "wrong answers: another refusal: standard error: wanted 'xm_run: a: long\\n', got 'xm_run: a: short\\n'",
    "wrong answers: another line: standard error: wanted 'xm_run: y: cannot read\\n', got 'xm_run: z: cannot read\\n'",
    "wrong answers: another copy: file x: wanted 4 bytes, got 3, they differ from byte 3 on",
    "wrong answers: a file that is written over: file a: wanted 3 bytes, got 4, they differ from byte 3 on",
    "wrong answers: a file that is there: file a: is there, and is not to be",
    "wrong answers: a file that goes: file a: is not there",
    "wrong answers: a file that goes: file z: is not there",
    "wrong answers: an earlier call that is refused: refuse a: ended with 1: 'xm_run: a: short\\n'",
]
NOT_TRIED = [
    "devices: a store: not tried: a device is to fail",
    "devices: a sink: not tried: a device is to fail",
    "devices: a sink that takes nothing: not tried: a device is to fail",
    "devices: the error output: not tried: a device is to fail",
    "devices: resets: not tried: there are resets between ticks",
    "devices: no words: not tried: the script itself answers no words",
]


@pytest.fixture
def program(tmp_path: Path, monkeypatch: pytest.MonkeyPatch) -> Path:
    data = tmp_path / "data"
    data.mkdir()
    for name, text in (("worked.toml", WORKED), ("kinds.toml", CASES), ("slow.toml", SLOW)):
        (data / name).write_text(text, encoding="utf-8")
    monkeypatch.setattr(tool.suite, "DATA", data)
    path = tmp_path / "stand_in"
    path.write_text(STAND_IN, encoding="utf-8")
    path.chmod(0o755)
    return path


def run(program: Path, monkeypatch: pytest.MonkeyPatch, *words: str) -> int:
    monkeypatch.setattr(sys, "argv", ["tools/try", "--program", str(program), *words])
    return int(tool.main())


def lines(capsys: pytest.CaptureFixture[str]) -> list[str]:
    return capsys.readouterr().out.splitlines()


def test_cases_that_hold(program: Path, monkeypatch: pytest.MonkeyPatch, capsys: pytest.CaptureFixture[str]) -> None:
    assert run(program, monkeypatch, "kinds.toml", "right: ") == 0
    assert lines(capsys) == ["kinds.toml: 11 of 11 as wanted"]
    assert run(program, monkeypatch, "kinds", "right: a report") == 0
    assert lines(capsys) == ["kinds.toml: 1 of 1 as wanted"]


def test_each_difference_is_a_line(program: Path, monkeypatch: pytest.MonkeyPatch, capsys: pytest.CaptureFixture[str]) -> None:
    assert run(program, monkeypatch, "kinds", "wrong answers: ") == 1
    assert lines(capsys) == [*WRONG, "kinds.toml: 0 of 13 as wanted"]


def test_outputs_and_files_that_are_made(program: Path, monkeypatch: pytest.MonkeyPatch, capsys: pytest.CaptureFixture[str]) -> None:
    assert run(program, monkeypatch, "kinds", "outputs: ") == 1
    assert lines(capsys) == [
        "outputs: it is not written: file x: is not there",
        "outputs: it is written, and is not to be: status: wanted 1 (Refused), got 0",
        "outputs: it is written, and is not to be: file x: is there, and is not to be",
        "kinds.toml: 2 of 4 as wanted",
    ]


def test_cases_that_are_to_differ(program: Path, monkeypatch: pytest.MonkeyPatch, capsys: pytest.CaptureFixture[str]) -> None:
    assert run(program, monkeypatch, "kinds", "differing: ") == 1
    assert lines(capsys) == ["differing: one that holds: it holds, and is to differ", "kinds.toml: 1 of 2 as wanted"]


def test_what_cannot_be_tried_is_said(program: Path, monkeypatch: pytest.MonkeyPatch, capsys: pytest.CaptureFixture[str]) -> None:
    assert run(program, monkeypatch, "kinds", "devices: ") == 0
    assert lines(capsys) == [*NOT_TRIED, "kinds.toml: 3 of 3 as wanted, 6 not tried"]
    assert run(program, monkeypatch, "kinds", "devices: resets") == 1


def test_a_call_that_takes_too_long_is_ended_and_no_other_waits_for_it(
    program: Path, monkeypatch: pytest.MonkeyPatch, capsys: pytest.CaptureFixture[str]
) -> None:
    answer = tool.Program.answer

    def lasting(self: Any, words: list[str], folder: Path) -> Any:
        """A call that names its seconds is ended where it has fewer, and takes no time."""
        left = self.end - time.monotonic()
        if words[0] == "lasts" and left < float(words[1]):
            raise subprocess.TimeoutExpired(words, left)
        return answer(self, words, folder)

    monkeypatch.setattr(tool.Program, "answer", lasting)
    assert run(program, monkeypatch, "--seconds", "1000", "slow") == 0
    over = "slow: it takes longer than there is: not tried: the seconds are over"
    assert lines(capsys) == [over, "slow.toml: 2 of 2 as wanted, 1 not tried"]
    assert run(program, monkeypatch, "--seconds", "1000", "slow", "longer than there is") == 1


def test_no_call_is_made_after_the_end(program: Path) -> None:
    with pytest.raises(subprocess.TimeoutExpired):
        tool.Program(program, end=time.monotonic()).answer(["say", "hi"], program.parent)


def test_a_program_that_is_no_script_says_nothing_of_its_own(program: Path) -> None:
    assert tool.provided(program).before == b"stand-in: not proved\n"
    assert tool.provided(Path("/bin/true")).before == b""


@pytest.mark.parametrize("words", [["absent"], ["kinds", "no such case"], ["unknown"]])
def test_what_is_not_there_ends_the_call(program: Path, monkeypatch: pytest.MonkeyPatch, words: list[str]) -> None:
    unknown = '[[group]]\nname = "g"\ncase = [{ shows = "s", call = "say", wants = 1 }]\n'
    (tool.suite.DATA / "unknown.toml").write_text(unknown, encoding="utf-8")
    with pytest.raises(SystemExit) as ended:
        run(program, monkeypatch, *words)
    assert ended.value.code not in (0, None)


def test_a_program_that_is_not_there_or_another_one(program: Path, monkeypatch: pytest.MonkeyPatch) -> None:
    for text in (None, "#!/bin/sh\necho hi\n"):
        path = program.parent / "other"
        if text:
            path.write_text(text, encoding="utf-8")
            path.chmod(0o755)
        with pytest.raises(SystemExit):
            run(path, monkeypatch, "kinds")


def test_files_of_cases_are_listed(program: Path, monkeypatch: pytest.MonkeyPatch, capsys: pytest.CaptureFixture[str]) -> None:
    monkeypatch.setattr(sys, "argv", ["tools/try"])
    assert tool.main() == 0
    assert [line.split() for line in lines(capsys)] == [["kinds", "39", "cases"], ["slow", "3", "cases"]]


def test_a_file_that_stands_twice_is_refused() -> None:
    shelf: dict[str, bytes] = {}
    tool.suite.put(shelf, {"file": [{"name": "a", "hex": "01"}]})
    assert shelf == {"a": b"\1"}
    with pytest.raises(ValueError, match="a: stands twice"):
        tool.suite.put(shelf, {"file": [{"name": "b", "hex": ""}, {"name": "a", "hex": "01"}]})
