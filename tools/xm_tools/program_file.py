"""The file that is the program: behind a script it is the one that the script runs, so that no run pays for the script."""

import hashlib
import os
import re
import shutil
import subprocess
import tempfile
from collections.abc import Iterator
from pathlib import Path

from xm_tools.failure import Unusable
from xm_tools.files import content_of
from xm_tools.program import program

ELF = b"\x7fELF"
DIGEST = re.compile("^program sha256=([0-9a-f]{64})$", re.M)


def candidates(script: Path) -> Iterator[Path]:
    """Where a script of a checkout, and that of a package, have their programs."""
    root = script.parent
    yield root / "crates/xm_run/out/xm_run"
    yield root.parent / "lib/xm_run/xm_run"
    own = Path(os.environ.get("TMPDIR", "/var/tmp")) / f"xm_run-{os.getuid()}"
    for place in (os.environ.get("XDG_CACHE_HOME", ""), "~/.cache", str(root / "out"), str(own)):
        if place:
            yield from sorted(Path(place).expanduser().glob("xm_run/*/*/xm_run"))


def digest_said(path: str) -> str | None:
    """The digest of the program that a script says it runs."""
    with tempfile.TemporaryDirectory() as folder:
        done = subprocess.run([path, "--version"], cwd=folder, stdin=subprocess.DEVNULL, capture_output=True, check=False)
    found = DIGEST.search(done.stdout.decode("ascii", "replace"))
    return found[1] if found else None


def program_file() -> str:
    """The path of the program; a script whose program is not found is the program itself."""
    path = shutil.which(program())
    if path is None:
        raise Unusable(f"{program()} cannot be called: name another program by XM_RUN")
    path = os.path.realpath(path)
    if content_of(path)[:4] == ELF:
        return path
    try:
        digest = digest_said(path)
    except OSError as error:
        raise Unusable(f"{path}: {error}") from None
    for candidate in candidates(Path(path)) if digest else ():
        if candidate.is_file() and hashlib.sha256(candidate.read_bytes()).hexdigest() == digest:
            return str(candidate)
    return path
