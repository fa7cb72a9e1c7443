"""Tries what the second simulator refuses: damaged containers of the suite, command lines, files that are not there.

usage: /usr/bin/python3 -m pytest examples/model/model_test.py

It needs Debian's package python3-pytest. What is refused, and by which line, is that of the rows of crates/case_suite/data.
"""

import functools
import hashlib
import subprocess
import sys
from collections.abc import Iterator
from pathlib import Path

import pytest

ROOT = Path(__file__).resolve().parent.parent.parent
sys.dont_write_bytecode = True
sys.path[:0] = [str(ROOT / "tools"), str(ROOT / "examples/model")]

import suite  # noqa: E402
from box import Fault, read_configuration, read_container  # noqa: E402

MODEL = ROOT / "examples/model/model.py"
# Of each image only its form is read, so of its fields no fault is found.
NOT_READ = " field at="


def rows() -> Iterator[tuple[str, bytes, str, bool]]:
    """The name, the file, the fault and whether it is a container, of each row that refuses one or a configuration."""
    for _, cases in suite.books():
        for case in cases:
            fault, content, words = case.wanted.get("refused"), case.files.get("x"), case.calls[-1]
            is_container = words[:2] in (["xmpack", "check"], ["xmpack", "list"]) or words[:1] == ["run"]
            is_configuration = words[:3] == ["xmpack", "build", "x"]
            if not fault or content is None or case.wanted.get("of_file", "x") != "x" or not (is_container or is_configuration):
                continue
            if "x" in words[1:3] and not (fault.startswith("image") and NOT_READ in fault):
                yield case.name, content, fault, is_container


ROWS = list(rows())


@pytest.mark.parametrize("content, fault, is_container", [row[1:] for row in ROWS], ids=[row[0] for row in ROWS])
def test_row(content: bytes, fault: str, is_container: bool) -> None:
    with pytest.raises(Fault) as found:
        (read_container if is_container else read_configuration)(content)
    assert str(found.value) == fault


@functools.cache
def duo() -> bytes:
    return next(case.files["duo.xmp"] for _, cases in suite.books() for case in cases if "duo.xmp" in case.files)


def test_actions() -> None:
    """An action is one of eleven; the first one of the first partition stands at 76 of the configuration."""
    for action in range(256):
        content = bytearray(duo()[:-16])
        content[14 + 76] = action
        try:
            read_container(bytes(content) + hashlib.md5(content).digest())
            fault = ""
        except Fault as found:
            fault = str(found)
        assert (fault == "config field at=76") == (action > 10), (action, fault)


LINES = [
    (["none", "--ticks", "5"], 3, "none: cannot read"),
    (["duo.xmp", "--ticks", "5", "--input", "0=none"], 3, "none: cannot read"),
    (["duo.xmp", "--ticks", "5", "--core", "0=none/core"], 4, "none/core: cannot write"),
    (["duo.xmp", "--ticks", "9" * 5000], 2, "usage"),
    (["duo.xmp", "--ticks", "5", "--input", f"{'9' * 5000}=none"], 2, "usage"),
    (["duo.xmp", "--ticks", "\u0665"], 2, "usage"),
    (["duo.xmp", "--ticks", "4000000001"], 2, "usage"),
    (["duo.xmp", "--ticks", "05"], 2, "usage"),
    (["duo.xmp"], 2, "usage"),
]


@pytest.mark.parametrize("words, status, line", LINES, ids=[f"{line[2]}-{number}" for number, line in enumerate(LINES)])
def test_line(tmp_path: Path, words: list[str], status: int, line: str) -> None:
    (tmp_path / "duo.xmp").write_bytes(duo())
    done = subprocess.run([sys.executable, "-B", str(MODEL), *words], cwd=tmp_path, capture_output=True, text=True, check=False)
    assert (done.returncode, done.stdout, done.stderr) == (status, "", f"model: {line}\n")
