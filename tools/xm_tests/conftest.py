"""What the tests of tools/xm have in common: the files of the suite, runs of the example systems, and a program.

The program that commands call is the one that XM_RUN names. Without it, it is examples/systems/second.py, which makes and runs
systems; tests of what that has not are skipped.
"""

import functools
import importlib
import os
import subprocess
import sys
from collections.abc import Iterator
from dataclasses import dataclass
from pathlib import Path
from typing import Any

import pytest

sys.dont_write_bytecode = True
ROOT = Path(__file__).resolve().parent.parent.parent
sys.path[:0] = [str(ROOT / "tools"), str(ROOT / "examples/model")]
XM = ROOT / "tools/xm"
SECOND = ROOT / "examples/systems/second.py"
SYSTEMS = ROOT / "examples/systems"

suite: Any = importlib.import_module("suite")


@dataclass(frozen=True)
class Done:
    status: int
    out: str
    err: str


def program_of_user() -> str | None:
    named = os.environ.get("XM_RUN")
    return os.path.abspath(named) if named else None


@pytest.fixture
def whole_program() -> str:
    """A program with all commands."""
    program = program_of_user()
    if program is None:
        pytest.skip("XM_RUN names no program")
    return program


def xm(folder: Path, *words: str, program: str | None = None, given: str = "") -> Done:
    """Calls the command in a folder."""
    environment = {**os.environ, "XM_RUN": program or program_of_user() or str(SECOND)}
    done = subprocess.run(
        [str(XM), *words], cwd=folder, input=given, capture_output=True, text=True, env=environment, check=False
    )
    notices = ("xm_run: not proved", "building without")
    err = "".join(line for line in done.stderr.splitlines(keepends=True) if not line.startswith(notices))
    return Done(done.returncode, done.stdout, err)


@functools.cache
def cases() -> list[Any]:
    """All cases of crates/case_suite/data."""
    return [case for _, book in suite.books() for case in book]


def files_with(magic: bytes) -> Iterator[tuple[Any, str, bytes]]:
    """The files of the suite that begin with these bytes, each with its case and its name."""
    for case in cases():
        for name, content in case.files.items():
            if content.startswith(magic):
                yield case, name, content


@functools.cache
def reports() -> dict[str, str]:
    """The reports of the suite and of the example systems."""
    found = {f"{case.name}": case.wanted["out"] for case in cases() if str(case.wanted.get("out", "")).startswith("SYSTEM ")}
    found.update({path.name: path.read_text() for path in SYSTEMS.glob("*/*.report")})
    return {name: text for name, text in found.items() if text.endswith("\n") and text.splitlines()[-1].startswith("END XM ")}


def built(folder: Path, name: str, programs: dict[str, str], toml: str = "") -> Done:
    """Builds an example system in a folder, by its description and the committed programs."""
    (folder / f"{name}.xml").write_text((SYSTEMS / name / f"{name}.xml").read_text())
    lines = [f'"{partition}" = "{SYSTEMS / name / program}"' for partition, program in programs.items()]
    (folder / f"{name}.toml").write_text("\n".join(["[programs]", *lines, toml, ""]))
    return xm(folder, "build", f"{name}.xml", "out")


SUPERVISOR = {"supervisor": "supervisor.elf", "sensor": "sensor.elf", "payload": "payload.elf"}


@pytest.fixture(scope="session")
def supervisor(tmp_path_factory: pytest.TempPathFactory) -> Path:
    """A folder with the supervisor's system, built and run, with the core file of the sensor where it divides by zero."""
    folder = tmp_path_factory.mktemp("supervisor")
    assert built(folder, "supervisor", SUPERVISOR, "[run]\nframes = 9").err == ""
    first = xm(folder, "run", "out", "--ticks", "8011", "--core", "sensor=sensor.core")
    assert first.err == ""
    assert xm(folder, "run", "out", "--report", "report.txt").err == ""
    return folder
