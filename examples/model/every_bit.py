#!/usr/bin/env python3
"""Damages a saved machine at every bit, and at every byte with a new digest, and compares what a program and the second simulator say.

usage: every_bit.py PROGRAM

PROGRAM is `xm_run`, as a file. The saved machine is the base of saves.toml. Each damaged file is given to `run --from .. --ticks 0
--save ..`: a file that is refused has to be refused with the same words, and one that is taken has to be saved as it is. In a file with
a new digest each byte before the digest has another value, which is drawn. The last line says how many files there were; the
status is 1 where an answer differs. It takes some minutes.
"""

import random
import subprocess
import sys
import tempfile
from collections.abc import Iterator
from pathlib import Path

sys.dont_write_bytecode = True
sys.path[:0] = [str(Path(__file__).resolve().parent)]

from box import Fault  # noqa: E402
from cases import all_cases  # noqa: E402
from continued import AGAIN, BASE_BOX, SAVED, Base, digested  # noqa: E402
from model import Machine  # noqa: E402
from saved import read_saved, saved_file  # noqa: E402


def with_byte(content: bytes, place: int, value: int) -> bytes:
    return content[:place] + bytes([value]) + content[place + 1 :]


def damaged(base: Base) -> Iterator[tuple[str, bytes]]:
    """Each damaged file, and where it is damaged."""
    for place, byte in enumerate(base.file):
        for bit in range(8):
            yield f"byte {place} bit {bit}", with_byte(base.file, place, byte ^ 1 << bit)
    draws = random.Random(3)
    for place in range(10, len(base.file) - 16):
        value = (base.file[place] + draws.randrange(1, 256)) % 256
        yield f"byte {place} is {value}, with a new digest", digested(with_byte(base.file, place, value))


def wanted(base: Base, content: bytes) -> str:
    """The line of a refusal; none where the file is taken."""
    try:
        machine = read_saved(content, base.system, base.digest, Machine)
    except Fault as fault:
        return f"xm_run: {SAVED}: {fault}\n"
    if saved_file(machine, base.digest) != content:
        sys.exit("the second simulator saves a file that it takes as another one")
    return ""


def answered(program: str, folder: Path, content: bytes) -> str:
    """The line of the program's refusal; none where it takes the file and saves it as it is."""
    (folder / SAVED).write_bytes(content)
    (folder / AGAIN).unlink(missing_ok=True)
    words = ["run", BASE_BOX, "--from", SAVED, "--ticks", "0", "--save", AGAIN]
    done = subprocess.run([program, *words], cwd=folder, stdin=subprocess.DEVNULL, capture_output=True, text=True, check=False)
    if done.returncode == 0:
        return done.stderr if (folder / AGAIN).read_bytes() == content else "saved as another file"
    return done.stderr


def main() -> int:
    if len(sys.argv) != 2 or sys.argv[1].startswith("-"):
        print(__doc__, file=sys.stderr)
        return 2
    program = str(Path(sys.argv[1]).resolve())
    all_cases()
    base, files, taken, differ = Base(), 0, 0, 0
    with tempfile.TemporaryDirectory() as name:
        folder = Path(name)
        (folder / BASE_BOX).write_bytes(base.content)
        for shows, content in damaged(base):
            want, got = wanted(base, content), answered(program, folder, content)
            files, taken = files + 1, taken + (not want)
            if got != want:
                differ += 1
                print(f"{shows}: wanted {want!r}, got {got!r}")
    print(f"{files} files, {taken} of them taken, {differ} differ")
    return 1 if differ else 0


if __name__ == "__main__":
    sys.exit(main())
