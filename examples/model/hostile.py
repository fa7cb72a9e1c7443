#!/usr/bin/env python3
"""Writes damaged files, damaged texts and wild calls as data of `case_suite`, each with the answer that it has to get.

usage: hostile.py FOLDER

FOLDER is crates/case_suite/data; the files are `damaged_files.toml` and `wild_calls.toml`. What is to be answered to damage
is worked here from docs/FORMATS.md. What a call is to answer stands in a table here, and the reports are the model's.
"""
import hashlib
import sys
import tomllib
from pathlib import Path

from book import comment, text_value
from box import Image, Segment, read_container
from model import CALLS, Machine

DIGEST = 16
WORD = 0xFFFFFFFF

DAMAGE = """\
What `xmpack` and `xmcparser` answer to files that are cut or changed at each of their bytes, and to texts of much depth or
length. examples/model/hostile.py writes this file; it works the answers from docs/FORMATS.md."""

WILD = """\
Each hypercall with all five arguments ffffffff, the first one of partition 0, which is a system partition, and of
partition 1, which is none, in the worked container. The guest sets %o0 to the number and %o1 to %o5 to -1, calls, writes
the result to the console as four bytes, and loops. examples/model/hostile.py writes this file: it compares what is
answered with a table that was made from docs/HYPERCALLS.md; the reports are those of examples/model, a second simulator
in Python that was written from the description of the machine."""


def worked(folder, name):
    table = tomllib.loads((folder / "worked.toml").read_text(encoding="utf-8"))
    return bytes.fromhex("".join(next(file["hex"] for file in table["file"] if file["name"] == name).split()))


# Damaged files.


def cut_fault(length):
    """The fault of a file that is cut: its magic, version and length are read first, then the length is compared."""
    for start, stop in ((0, 4), (4, 6), (6, 10)):
        if length < stop:
            return f"short at={start}"
    return f"short at={length}"


def changed_fault(content, place):
    """The fault of a file of which a byte is changed: the first one in this order."""
    if place < 4:
        return "magic"
    if place < 6:
        return f"version found={int.from_bytes(content[4:6], 'big')}"
    length = int.from_bytes(content[6:10], "big")
    if length > len(content):
        return f"short at={len(content)}"
    if length < len(content):
        return f"trailing at={length}"
    return f"digest stored={content[-DIGEST:].hex()} found={hashlib.md5(content[:-DIGEST]).hexdigest()}"


def bytes_text(count):
    return "1 byte" if count == 1 else f"{count} bytes"


def cut_row(length):
    return f'  {{ shows = "{bytes_text(length)}", make = {{ length = {length} }}, refused = "{cut_fault(length)}" }},'


def changed_row(content, place):
    changed = bytearray(content)
    changed[place] ^= 1
    make = f"{{ bytes = [[{place}, {changed[place]}]] }}"
    return f'  {{ shows = "byte {place}", make = {make}, refused = "{changed_fault(bytes(changed), place)}" }},'


def group(name, settings, rows):
    return ["", "[[group]]", f'name = "{name}"', *settings, "case = [", *rows, "]"]


def damaged(folder):
    box, configuration = worked(folder, "duo.xmp"), worked(folder, "demo.xmc")
    of_box = ['call = "xmpack check x"', 'make = { name = "x", of = "duo.xmp" }', 'of_file = "x"']
    of_configuration = [
        'call = "xmpack build x x.xmp 0=a.xef 1=b.xef"', 'make = { name = "x", of = "demo.xmc" }',
        'file = ["a.xef", "b.xef"]', 'of_file = "x"', 'output = "x.xmp"',
    ]  # fmt: skip
    of_text = ['call = "xmcparser x o"', 'make = { name = "x" }', 'of_file = "x"', 'output = "o"']
    root, element, more = '<SystemDescription version=\\"1\\" name=\\"x\\">', "<HwDescription>", 99_999
    second = len(root.replace("\\", "")) + len(element)
    insert = f'insert = {{ before = "{element}", text = "{element}", from = 0, to = {more} }}'
    texts = [
        '  { shows = "two brackets", make = { text = "<<" }, refused = "bad-item at=1" },',
        f'  {{ shows = "100000 elements that begin, one inside the other", make = {{ text = "{root}{element}", {insert} }}, '
        f'refused = "wrong-child at={second}" }},',
        '  { shows = "a comment of 1000000 blanks that does not end", '
        'make = { text = "<!--", length = 1000004, fill = 32 }, refused = "unclosed at=1000004" },',
    ]
    return [
        *comment(DAMAGE.splitlines()),
        *group("containers that are cut to each length", of_box, map(cut_row, range(len(box)))),
        *group("containers of which the lowest bit of a byte is changed", of_box,
               (changed_row(box, place) for place in range(len(box)))),
        *group("configurations that are cut to each length", of_configuration,
               map(cut_row, range(10, len(configuration)))),
        *group("texts that are long or deep", of_text, texts),
    ]  # fmt: skip


# Wild calls.


def wild_answers():
    """What each number is answered by partition 1, which is no system partition; None where there is no result."""
    answers = {1: 1, 33: -7, 27: None, 34: None, 0: -2, 39: -2, WORD: -2}
    answers |= dict.fromkeys([2, 3, 4, 5, 6, 8, 9, 10, 11, 14, 15, 25, 26, 28, 29], -4)
    answers |= dict.fromkeys([12, 13, 16, 17, 18, 19, 20, 21, 22, 23, 24, 32, 38], -3)
    answers |= dict.fromkeys([7, 30, 31, 35, 36, 37], 0)
    return answers


def system_answers():
    """What partition 0 is answered, which is a system partition: 9 halts the hypervisor."""
    answers = {number: -3 if answer == -4 else answer for number, answer in wild_answers().items()}
    return answers | {1: 0, 9: None, 10: -6}


EVENTS = {27: "XM_HM_EV_PARTITION_ERROR ffffffff", 34: "XM_HM_EV_MEM_PROTECTION {pc:08x}"}
RESULT = 0x7C  # where the guest keeps the result
TICKS = 3100


def guest(start, number):
    """The words of a guest that makes one call."""
    first = 0x90103FFF if number == WORD else 0x90102000 | number  # mov number, %o0
    arguments = [0x80103FFF | register << 25 for register in range(9, 14)]  # mov -1, %o1 to %o5
    keep = [0x03000000 | start >> 10, 0xD0206000 | RESULT]  # sethi %hi(start), %g1; st %o0, [%g1 + RESULT]
    say = [0x90102020, 0x92006000 | RESULT, 0x94102004, 0x91D02070]  # write_console(start + RESULT, 4)
    return [first, *arguments, 0x91D02070, *keep, *say, 0x10800000, 0x01000000]


def report_of(folder, part, start, words):
    system = read_container(worked(folder, "duo.xmp"))
    content = b"".join(word.to_bytes(4, "big") for word in words)
    system.parts[part].image = Image(start, [Segment(start, content)])
    return Machine(system).run(TICKS)


def check_answer(report, part, start, number, answer):
    """Compares what a report says of the call with the table."""
    if number in EVENTS:
        event = EVENTS[number].format(pc=start + 24)
        said = f"P{part} HM {event} XM_HM_AC_HALT\n" in report and " CON " not in report
    elif answer is None:
        said = "XM HALT\n" in report and " CON " not in report
    else:
        shown = "".join(f"\\x{byte:02x}" for byte in (answer & WORD).to_bytes(4, "big"))
        said = f"P{part} CON {shown}\n" in report
    if not said:
        sys.exit(f"partition {part}, number {number}: not {answer} in\n{report}")


def number_text(number):
    return "-1" if number == WORD else str(number)


def wild_row(folder, part, start, number, answer):
    words = guest(start, number)
    report = report_of(folder, part, start, words)
    check_answer(report, part, start, number, answer)
    name = CALLS[number][0] if number in CALLS else "no call"
    program = f'{{ start = "{start:08x}", words = "{" ".join(f"{word:08x}" for word in words)}" }}'
    return f'  {{ shows = "{number_text(number)}, {name}", make = {{ program = {program} }}, out = {text_value(report)} }},'


def wild_group(folder, name, part, start, answers):
    other = f"{1 - part}={'ba'[part]}.xef"
    settings = [
        "before = [", '  "xmeformat build g.elf g.xef",', f'  "xmpack build demo.xmc g.xmp {part}=g.xef {other}",', "]",
        f'call = "run g.xmp --ticks {TICKS}"', f'file = ["demo.xmc", "{other[2:]}"]', 'make = { name = "g.elf" }',
    ]  # fmt: skip
    rows = (wild_row(folder, part, start, number, answer) for number, answer in sorted(answers.items()))
    return group(name, settings, rows)


def wild(folder):
    return [
        *comment(WILD.splitlines()),
        *wild_group(folder, "wild calls of a partition that is no system partition", 1, 0x40180000, wild_answers()),
        *wild_group(folder, "wild calls of a system partition", 0, 0x40100000, system_answers()),
    ]


def main():
    if len(sys.argv) != 2:
        print(__doc__, file=sys.stderr)
        return 2
    folder = Path(sys.argv[1])
    for name, lines in (("damaged_files", damaged(folder)), ("wild_calls", wild(folder))):
        (folder / f"{name}.toml").write_text("".join(line + "\n" for line in lines), encoding="utf-8")
    return 0


if __name__ == "__main__":
    sys.exit(main())
