#!/usr/bin/env python3
"""Writes the container and the input words of crates/output_suite, and what that program has to print.

usage: files.py FOLDER

FOLDER is the program's; its files `data/pair.xmp`, `data/w` and `stdout` are written. The report, what the UARTs get and the core
file are those of the second simulator, model.py. The script is spelled by scripts.py, and its line on the error output stands here.

Both partitions have these ten instructions, and ten ticks each: they read an input word over the text `none`, write these four bytes
to their console, and halt. The first one has the word `ping`, and its console is UART 0; the second one has none, and its console is
UART 1. So UART 0 gets `ping`, and UART 1 `none`.
"""
import sys
from pathlib import Path

from asm import HYPERCALL, Guest
from box import Area, Part, Plan, Slot, System, container
from model import Machine
from rows import P0, P1, image
from scripts import script

TICKS = 20
WORD = b"ping"
# The second script's folder is not there.
ERROR = "xm_run: nowhere/t: cannot write"


def guest(base, part):
    written = Guest(base)
    written.call(33, "text")  # ticks 0 to 3: reads a word; %o1 keeps the address
    written.mov(4, "o2").mov(32, "o0").put(HYPERCALL)  # to 6: writes four bytes
    written.call(2, part)  # to 9: halts
    written.label("text").text("none")
    return written.bytes()


def pair():
    parts = [
        Part(f"P{number}", [Area(base, 0x1000)], image(base, guest(base, number)), console=number)
        for number, base in enumerate((P0, P1))
    ]
    plan = Plan(TICKS, [Slot(0, 10, 0), Slot(10, 10, 1)])
    return System("pair", [(0x40000000, 0x400000)], 0x80000, [plan], parts, ["U0", "U1"])


def main():
    folder = Path(sys.argv[1])
    (folder / "data" / "pair.xmp").write_bytes(container(pair()))
    (folder / "data" / "w").write_bytes(WORD)
    machine = Machine(pair(), {0: [int.from_bytes(WORD, "big")]})
    text = machine.run(TICKS)
    first, second = (content.decode() for content in machine.uarts[:2])
    text += f"uart0.out has `{first}`\nuart1.out has `{second}`\n{ERROR}\n"
    text += f"c has {len(machine.core_file(1))} bytes\n"
    text += f"s has {script(0, ([range(0, 10)], [range(10, 20)]), {}, TICKS).hex()}\n"
    (folder / "stdout").write_text(text)


if __name__ == "__main__":
    main()
