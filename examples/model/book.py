#!/usr/bin/env python3
"""Writes the small systems that show most as data of `case_suite`: their containers, calls and the model's reports.

usage: book.py FOLDER

FOLDER is crates/case_suite/data. The files are those of BOOKS, and upsets.toml, which has the cases with upsets.
"""
import hashlib
import itertools
import re
import struct
import sys
import tempfile
import textwrap
from pathlib import Path

from box import ACTIONS, EVENTS, Part, container, image_file, read_container
from cases import (
    CASES, CORES, FIRST, MOST_UPSETS, REFUSED_TICKS, REFUSED_UPSETS, RESETS, UPSETS, all_cases, bit_of, many_upsets, two_that_loop,
)
from model import CALLS, MOST_TICKS, RESET_NAMES, Refusal, run_words
from replay import MOST_BYTES, Lone, read_script, recorded
from replay import run_words as replay_words
from scripts import spelled
from shown import BOOKS, REFUSED_REPLAYS, REPLAYED, REPLAYED_PLACES, UPSET_BOOK, WRONG_REPLAYS
from upsets import read_upsets

LEGEND = """\
The containers and the reports are those of examples/model, a second simulator in Python that was written from the
description of the machine; `examples/model/book.py crates/case_suite/data` writes this file.

Each guest is listed by its steps, with the address of the first one of a line:
  name(..)      a hypercall with its arguments, by its name in docs/HYPERCALLS.md or else by its number
  ask name(..)  the same, and then the result goes to the console as four bytes
  wild n, ..    the hypercalls of these numbers, each asked so, with all five arguments ffffffff
  show x, n     n bytes at x go to the console
  show %r       the register goes to the console as four bytes
  wait n        nothing for n ticks
  stack         %sp and %fp are set for windows
  loop          a branch to itself
At 0x1000 of a partition stand the words `shown`, `four` (abcdefgh) and `room` (64 bytes), at 0x1400 the handlers, each
named by its trap type, and at 0x2000 the table of traps. Its area is writable up to 0x4000, and read-only from there to
0x5000. Partition 0 begins at 0x40100000, each further one 0x10000 behind. A partition that is not listed loops.

Containers whose configurations differ in few bytes have their front in common, up to the images, with that of partition 0
where it only loops. Bytes 8 and 9 are the container's length, the others what the lines above the container say. Of each
image there are its head, the words of each segment in lines of their own, and its digest."""
UPSET_LEGEND = """\
The rows have the file of upsets, `u`. The report is that of the second simulator, by the state of the partition that the
upsets leave; a core file has it whole. Registers of window 7, which is the first one: w112 to w119 are %o0 to %o7, w120 to
w127 %l0 to %l7. Systems that are alike have one container, whose listing stands once."""
MOST_CHANGES = 8
MOST_REPORT = 8000  # of a longer one a row has the digest
CORE = "c"  # the name of a case's core file
UPSET_FILE = "u"  # that of its upsets
SCRIPT_FILE = "s"  # and the script of a replay
ODD_FILES = {"odd": bytes(5)}  # input words whose length is wrong


class Fronts:
    """The fronts of containers that were written before, by their names."""

    def __init__(self):
        self.known = {}

    def near(self, front):
        """A known front that differs in few bytes, and the places and values of those."""
        for name, other in self.known.items():
            changes = [[place, byte] for place, (byte, old) in enumerate(zip(front, other)) if byte != old]
            if len(front) == len(other) and len(changes) <= MOST_CHANGES:
                return name, changes
        return None

    def container_entry(self, name, system, lines):
        content = container(system)
        size = 15 + struct.unpack(">I", content[10:14])[0]
        images = list(system.parts)
        if is_idle(images[0].image.guest):
            size += 5 + len(image_file(images.pop(0).image))
        front = content[:size]
        entry = []
        if not self.near(front):
            known = f"front {len(self.known)}"
            self.known[known] = front
            entry = file_entry(known, hex_lines(front))
        known, changes = self.near(front)
        entry += [*comment(lines), "[[file]]", f'name = "{name}"', f'of = "{known}"']
        if changes:
            entry.append(f"bytes = {changes}")
        rest = [line for part in images for line in image_lines(system.parts.index(part), part.image)]
        return [*entry, 'append_hex = """', *rest, content[-16:].hex(), '"""', ""]


def comment(lines):
    return [f"# {line}".rstrip() for line in lines]


def named_calls(step):
    """The step with the hypercalls by their names."""

    def named(match):
        ask, number = match[1] or "", int(match[2])
        return f"{ask}{CALLS[number][0]}(" if number in CALLS else f"{ask}hypercall {match[2]}("

    step = re.sub(r"^(ask )?(?:hypercall )?(\d+|0x[0-9a-f]+)\(", lambda m: named_base(m, named), step)
    return re.sub(r"^handler (\d+):$", lambda m: f"trap {int(m[1]):#04x}:", step)


def named_base(match, named):
    number = int(match[2], 0)
    return named({1: match[1], 2: str(number)})


def listing(program):
    """The steps, as many in a line as there is room for; a label begins a line."""
    lines, line, at = [], "", None
    for address, step in program.steps:
        step = named_calls(step)
        if line and (step.endswith(":") or len(line) + len(step) > 100):
            lines.append(f"  {at:08x}  {line}")
            line = ""
        if not line:
            at = address
        joint = "" if not line else " " if line.endswith(":") else "; "
        line += joint + step
    return [*lines, f"  {at:08x}  {line}"]


def is_idle(guest):
    return [step for _, step in guest.steps] == ["loop"]


def listed(system):
    lines = []
    for number, part in enumerate(system.parts):
        program = part.image.guest
        if not is_idle(program):
            lines += [f"partition {number}:", *listing(program)]
    return lines


def settings(system):
    """What the configuration says of events, beside the default answers and flags."""
    default = Part("", [])
    lines = []
    for number, part in enumerate(system.parts):
        words = [f"{event}: {ACTIONS[action]}" for event, action, usual
                 in zip(EVENTS, part.actions, default.actions) if action != usual]
        if part.logged != default.logged:
            words.append(f"logged {part.logged:03x}")
        if words:
            lines += textwrap.wrap(f"partition {number} has {', '.join(words)}", 116)
    return lines


def hex_lines(content):
    digits = content.hex()
    words = [digits[k : k + 8] for k in range(0, len(digits), 8)]
    return [" ".join(words[k : k + 12]) for k in range(0, len(words), 12)]


def image_lines(number, image):
    """The image's number, length and head, then the content of each segment, then the digest."""
    content = image_file(image)
    size = 15 + 12 * len(image.segments)
    lines = [f"{number:02x} {len(content):08x} {content[:10].hex()} {content[10:15].hex()}"]
    lines[0] += "".join(f" {content[place:place + 12].hex()}" for place in range(15, size, 12))
    for segment in image.segments:
        lines += hex_lines(segment.content)
    return [*lines, content[-16:].hex()]


def file_entry(name, lines):
    return ["[[file]]", f'name = "{name}"', 'hex = """', *lines, '"""', ""]


def text_value(text):
    for found, escape in (("\\", "\\\\"), ('"', '\\"'), ("\n", "\\n"), ("\r", "\\r"), ("\t", "\\t")):
        text = text.replace(found, escape)
    return f'"{text}"'


def input_name(name, number):
    return f"{name}.{number}.in"


def core_name(name):
    return f"core {CORES[name]} of {name}"


def core_words(name):
    """The words that ask for the core file of a case."""
    return ["--core", f"{CORES[name]}={CORE}"] if name in CORES else []


def core_entry(name, words):
    """The core file that the model gives, by its length and the bytes that are not zero."""
    content = outcome(name, words)[1][CORE]
    source = ['hex = ""', f"length = {len(content)}"]
    return bytes_entry(core_name(name), source, [(place, byte) for place, byte in enumerate(content) if byte])


def bytes_entry(name, source, changes):
    """A file by the lines that say what it is made of, and the places and values of its bytes that differ from that."""
    places = " ".join(f"[{place},_{byte:#04x}]," for place, byte in changes)
    lines = [f"  {line}".replace("_", " ") for line in textwrap.wrap(places, 116)]
    return ["[[file]]", f'name = "{name}"', *source, *(["bytes = [", *lines, "]"] if lines else []), ""]


def case_files(name, fronts):
    system, length, inputs = CASES[name]
    lines = [f"{name}:", *settings(system), *listed(system)]
    lines = fronts.container_entry(f"{name}.box", system, lines)
    for number, words in inputs.items():
        lines += file_entry(input_name(name, number), [" ".join(f"{word:08x}" for word in words)])
    if name in CORES:
        lines += core_entry(name, [*length, *core_words(name)])
    return lines


def case_row(name, shows):
    system, words, inputs = CASES[name]
    files = [f"{name}.box", *(input_name(name, number) for number in inputs)]
    for number in inputs:
        words = [*words, "--input", f"{number}={input_name(name, number)}"]
    words = [*words, *core_words(name)]
    listed_files = ", ".join(f'"{file}"' for file in files)
    call = " ".join(["run", f"{name}.box", *words])
    resets = f"resets = [{', '.join(map(reset_value, RESETS[name]))}], " if name in RESETS else ""
    core = f', same = {{ {CORE} = "{core_name(name)}" }}' if name in CORES else ""
    out = text_value(outcome(name, words)[0])
    return f'  {{ shows = "{shows}", call = "{call}", file = [{listed_files}], {resets}out = {out}{core} }},'


def reset_value(reset):
    tick, part, mode, status = reset
    place = "" if part is None else f"part = {part}, status = {status}, "
    return f'{{ tick = {tick}, {place}mode = "{RESET_NAMES[mode].lower()}" }}'


def outcome(name, words):
    """The report that the model gives of a case, and the core files by their names."""
    system, _, inputs = CASES[name]
    with tempfile.TemporaryDirectory() as folder:
        (Path(folder) / f"{name}.box").write_bytes(container(system))
        for number, values in inputs.items():
            (Path(folder) / input_name(name, number)).write_bytes(struct.pack(f">{len(values)}I", *values))
        if name in UPSETS:
            (Path(folder) / UPSET_FILE).write_text(UPSETS[name])
            words = [*words, "--upset", UPSET_FILE]
        return run_words([f"{name}.box", *words], Path(folder), RESETS.get(name, ()))


def book(title, groups):
    lines = comment([title, *LEGEND.splitlines()])
    fronts = Fronts()
    for name, rows in groups.items():
        lines.append("")
        for case in rows:
            lines += case_files(case, fronts)
        lines += ["[[group]]", f'name = "{name}"', "case = ["]
        lines += [case_row(case, shows) for case, shows in rows.items()]
        lines.append("]")
    return "".join(line + "\n" for line in lines)


# Upsets.


def out_entry(report):
    long = len(report) > MOST_REPORT
    return f'out_md5 = "{hashlib.md5(report.encode()).hexdigest()}"' if long else f"out = {text_value(report)}"


def upsets_value(text):
    """How the file of upsets is made; of many lines the last one, with others that are alike before it."""
    first, last = text.partition("\n")[0] + "\n", text[text.rstrip("\n").rfind("\n") + 1 :]
    count = text.count("\n") - last.count("\n")
    if count < 100:
        return f'{{ name = "{UPSET_FILE}", text = {text_value(text)} }}'
    insert = f"{{ text = {text_value(first)}, from = 0, to = {count}, before = {text_value(last)} }}"
    return f'{{ name = "{UPSET_FILE}", text = {text_value(last)}, insert = {insert} }}'


def differing(content, other, piece=1024):
    """The places of the bytes that differ, and their values; pieces that are the same are passed over whole."""
    return [(place, content[place]) for start in range(0, len(content), piece)
            if content[start : start + piece] != other[start : start + piece]
            for place in range(start, min(start + piece, len(content))) if content[place] != other[place]]  # fmt: skip


class Boxes:
    """The containers of cases with upsets; systems that are alike have one, with the name of the first."""

    def __init__(self):
        self.fronts, self.names = Fronts(), {}
        self.cores = {"": b""}

    def files(self, name):
        """The entries of a case's files that no case before it has."""
        system, _, inputs = CASES[name]
        content, lines = container(system), []
        if content not in self.names:
            self.names[content] = f"{name.removeprefix('upset_')}.box"
            lines = [f"{self.names[content]}:", *settings(system), *listed(system)]
            lines = self.fronts.container_entry(self.names[content], system, lines)
        for number, words in inputs.items():
            lines += file_entry(input_name(name, number), [" ".join(f"{word:08x}" for word in words)])
        return lines + (self.core_entry(name) if name in CORES else [])

    def words(self, name):
        """The options of a case but for its upsets."""
        _, words, inputs = CASES[name]
        return [*words, *(word for number in inputs for word in ("--input", f"{number}={input_name(name, number)}")), *core_words(name)]

    def core_entry(self, name):
        """The core file by the bytes that differ from an earlier one, of which that with the fewest is taken, or from zeros."""
        content = outcome(name, self.words(name))[1][CORE]
        near = {known: differing(content, other.ljust(len(content), b"\0"))
                for known, other in self.cores.items() if len(other) in (0, len(content))}  # fmt: skip
        known = min(near, key=lambda known: (len(near[known]), known))
        self.cores[core_name(name)] = content
        source = [f'of = "{known}"'] if known else ['hex = ""', f"length = {len(content)}"]
        return bytes_entry(core_name(name), source, near[known])

    def row(self, name, shows):
        system, _, inputs = CASES[name]
        box, words = self.names[container(system)], self.words(name)
        files = ", ".join(f'"{file}"' for file in [box, *(input_name(name, number) for number in inputs)])
        report = outcome(name, words)[0]
        out = out_entry(report)
        core = f', same = {{ {CORE} = "{core_name(name)}" }}' if name in CORES else ""
        call = " ".join(["run", box, "--upset", UPSET_FILE, *words])
        made = upsets_value(UPSETS[name])
        return f'  {{ shows = "{shows}", call = "{call}", file = [{files}], make = {made}, {out}{core} }},'


def refused_rows(box):
    """What is refused, with the model's line."""
    texts = REFUSED_UPSETS | {f"{MOST_UPSETS + 1} lines": "".join(f"{line}\n" for line in many_upsets(MOST_UPSETS + 1))}
    with tempfile.TemporaryDirectory() as folder:
        (Path(folder) / box).write_bytes(container(two_that_loop()))
        for shows, text in texts.items():
            (Path(folder) / UPSET_FILE).write_bytes(text.encode())
            try:
                run_words([box, "--ticks", str(REFUSED_TICKS), "--upset", UPSET_FILE], Path(folder))
            except Refusal as refusal:
                fault = str(refusal).removeprefix(f"{UPSET_FILE}: ")
                yield f'  {{ shows = "{shows}", make = {upsets_value(text)}, refused = "{fault}", absent = ["{CORE}"] }},'
            else:
                sys.exit(f"{shows}: not refused")


WRONG_WORDS = {
    "two files": f"--ticks 5 --upset {UPSET_FILE} --upset {UPSET_FILE}", "no file": "--ticks 5 --upset",
    "an option instead of the file": "--upset --ticks 5", "an empty name": "--ticks 5 --upset ", "no length": f"--upset {UPSET_FILE}",
}


def refused_groups(fronts):
    box = "loops.box"
    yield from fronts.container_entry(box, two_that_loop(), [f"{box}: both partitions loop"])
    yield from ["[[group]]", 'name = "files of upsets that are refused"']
    yield f'call = "run {box} --ticks {REFUSED_TICKS} --upset {UPSET_FILE} --core 0={CORE}"'
    yield from [f'file = ["{box}"]', f'of_file = "{UPSET_FILE}"', "case = [", *refused_rows(box), "]", ""]
    yield from ["[[group]]", 'name = "words of runs with upsets"', f'file = ["{box}"]']
    yield f'make = {{ name = "{UPSET_FILE}", text = "1 0 y 0\\n" }}'
    yield "case = ["
    for shows, words in WRONG_WORDS.items():
        yield f'  {{ shows = "{shows}", call = "run {box} {words}", usage = true }},'
    err = text_value("xm_run: none: cannot read\n")
    yield f'  {{ shows = "a file that is not there", call = "run {box} --ticks 5 --upset none", status = "ReadFault", err = {err} }},'
    yield "]"


# Replays.


class Replays:
    """Replays of partitions of cases with upsets, by the scripts of their runs: what the program has to print is the part of the partition
    in the run, and the replay of the second simulator has to give the same."""

    def __init__(self, boxes):
        self.boxes, self.scripts = boxes, {}

    def replay(self, name, p, with_upsets=True):
        """The name of the script, and the partition's own lines."""
        system, words, inputs = CASES[name]
        system = read_container(container(system))
        ticks = int(words[1]) * (system.plans[0].frame if words[0] == "--frames" else 1)
        upsets = read_upsets(UPSETS[name].encode(), system.parts, ticks) if with_upsets else []
        cues, lines, core = recorded(system, inputs, p, upsets, ticks)
        lone, content = Lone(system, p, inputs.get(p, [])), spelled(p, cues)
        if (lone.replay(read_script(content, p), upsets), lone.core_file(p)) != (lines, core):
            sys.exit(f"{name}, partition {p}: the replay differs from the run")
        script = f"script {p} of {name}" + ("" if with_upsets else " without its upsets")
        return self.scripts.setdefault(content, script), lines

    def box(self, name):
        return self.boxes.names[container(CASES[name][0])]

    def row(self, name, p, shows):
        script, lines = self.replay(name, p)
        inputs = CASES[name][2]
        files = [self.box(name), f"{SCRIPT_FILE}={script}", *([input_name(name, p)] if p in inputs else [])]
        words = ["alone", self.box(name), str(p), SCRIPT_FILE, "--upset", UPSET_FILE]
        words += ["--input", input_name(name, p)] if p in inputs else []
        same = ""
        if CORES.get(name) == p:
            words += ["--core", CORE]
            same = f', same = {{ {CORE} = "{core_name(name)}" }}'
        listed_files = ", ".join(f'"{file}"' for file in files)
        made = upsets_value(UPSETS[name])
        return f'  {{ shows = "{shows}", call = "{" ".join(words)}", file = [{listed_files}], make = {made}, {out_entry(lines)}{same} }},'

    def refused(self, name, p, words, text, with_upsets=True):
        """How the model refuses a replay by a script of a case: the file, and the text."""
        script, _ = self.replay(name, p, with_upsets)
        box = self.box(name)
        with tempfile.TemporaryDirectory() as folder:
            content = next(content for content, known in self.scripts.items() if known == script)
            for file, known in {box: container(CASES[name][0]), SCRIPT_FILE: content, UPSET_FILE: text.encode(), **ODD_FILES}.items():
                (Path(folder) / file).write_bytes(known)
            try:
                replay_words([box, str(p), SCRIPT_FILE, *words.split()], Path(folder))
            except Refusal as refusal:
                return script, *str(refusal).split(": ", 1)
        return sys.exit(f"{name}: {words} is not refused")

    def refused_row(self, name, p, shows, words, text, with_upsets=True):
        script, file, fault = self.refused(name, p, words, text, with_upsets)
        odd = "".join(f', "{file}=odd words"' for file in ODD_FILES if file in words.split())
        files = f'"{self.box(name)}", "{SCRIPT_FILE}={script}"{odd}'
        call = f"alone {self.box(name)} {p} {SCRIPT_FILE} {words}"
        return f'  {{ shows = "{shows}", call = "{call}", file = [{files}], make = {upsets_value(text)}, refused = "{fault}", of_file = "{file}", absent = ["{CORE}"] }},'

    def groups(self):
        """The groups, after the scripts that they use."""
        lines = ["", *self.group("replays with upsets of each place", [self.row(f"upset_{name}", 1, shows) for name, shows in REPLAYED_PLACES.items()])]
        lines += self.group("replays with upsets", [self.row(f"upset_{name}", p, shows) for name, p, shows in REPLAYED])
        lines += self.group("orders of the options of a replay", list(self.order_rows()))
        lines += self.group("replays with upsets that are refused", list(self.refused_rows()))
        lines += self.group("words of replays with upsets", list(self.word_rows()))
        odd = [line for content in ODD_FILES.values() for line in file_entry("odd words", [content.hex()])]
        return [*odd, *(line for content, name in self.scripts.items() for line in file_entry(name, pieces(content.hex()))), *lines]

    def group(self, name, rows):
        return ["[[group]]", f'name = "{name}"', "case = [", *rows, "]", ""]

    def order_rows(self):
        """The options in each order, a replay by a script that a run wrote, and upsets past the end of the script."""
        name, p = "upset_around_a_warm_reset_of_all", 0
        script, lines = self.replay(name, p)
        box, words_of_it = self.box(name), input_name(name, p)
        front = f'file = ["{box}", "{SCRIPT_FILE}={script}", "{words_of_it}"], make = {upsets_value(UPSETS[name])}, out = {text_value(lines)}'
        options = {"--upset": UPSET_FILE, "--input": words_of_it, "--core": CORE}
        for order in itertools.permutations(options):
            words = " ".join(f"{option} {options[option]}" for option in order)
            yield f'  {{ shows = "{", ".join(order)}", call = "alone {box} {p} {SCRIPT_FILE} {words}", {front} }},'
        name, p = "upset_add_to_sub", 0
        script, lines = self.replay(name, p)
        box, out = self.box(name), f"out = {text_value(lines)}"
        run = f"run {box} --ticks 60 --script {p}={SCRIPT_FILE} --upset {UPSET_FILE}"
        replay = f"alone {box} {p} {SCRIPT_FILE} --upset {UPSET_FILE}"
        yield f'  {{ shows = "by the script that a run wrote", calls = ["{run}", "{replay}"], file = ["{box}"], make = {upsets_value(UPSETS[name])}, {out} }},'
        made = f'make = {upsets_value(UPSETS[name])}, {out}, same = {{ {UPSET_FILE} = "{core_name(name)}" }}'
        yield f'  {{ shows = "the core file over the upsets", call = "{replay} --core {UPSET_FILE}", file = ["{box}", "{SCRIPT_FILE}={script}"], {made} }},'
        late = UPSETS[name] + f"60 {p} y 0\n61 1 y 0\n{MOST_TICKS - 1} {p} pc 31\n"
        yield f'  {{ shows = "upsets after the end of the script", call = "{replay}", file = ["{box}", "{SCRIPT_FILE}={script}"], make = {upsets_value(late)}, {out} }},'
        plain, lines = self.replay(name, p, with_upsets=False)
        files = f'file = ["{box}", "{SCRIPT_FILE}={plain}"]'
        yield f'  {{ shows = "no line", call = "{replay}", {files}, make = {upsets_value("")}, out = {text_value(lines)} }},'

    def refused_rows(self):
        name = "upset_add_to_sub"
        for shows, text in REFUSED_REPLAYS.items():
            yield self.refused_row(name, 0, shows, f"--upset {UPSET_FILE} --core {CORE}", text)
        many = "".join(f"{line}\n" for line in many_upsets(MOST_UPSETS + 1))
        yield self.refused_row(name, 0, f"{MOST_UPSETS + 1} lines", f"--upset {UPSET_FILE} --core {CORE}", many)
        yield self.refused_row(name, 0, "an input whose length is wrong, before the upsets", f"--upset {UPSET_FILE} --input odd", "y\n")
        name = "upset_causes_a_halt"
        yield self.refused_row(name, 0, "a script of a run with upsets, without them", f"--core {CORE}", "")
        yield self.refused_row(name, 0, "a script of a run without upsets, with them", f"--upset {UPSET_FILE} --core {CORE}", UPSETS[name], with_upsets=False)
        yield self.refused_row(name, 0, "upsets that are malformed, before a cue that cannot be taken", f"--upset {UPSET_FILE} --core {CORE}", "31 0 y 0\n30 0 y 0\n", with_upsets=True)
        name = "upset_around_another_plan"
        yield self.refused_row(name, 0, "a call that is no longer made", f"--upset {UPSET_FILE}", f"0 0 {bit_of(FIRST, 31)}\n")

    def word_rows(self):
        name, p = "upset_add_to_sub", 0
        script, _ = self.replay(name, p)
        box, files = self.box(name), f'file = ["{self.box(name)}", "{SCRIPT_FILE}={script}"]'
        made = f"make = {upsets_value(UPSETS[name])}"
        for shows, words in WRONG_REPLAYS.items():
            yield f'  {{ shows = "{shows}", call = "alone {box} {p} {SCRIPT_FILE} {words}", {files}, {made}, usage = true }},'
        call = f'call = "alone {box} {p} {SCRIPT_FILE} --core {CORE} --upset'
        err = text_value("xm_run: none: cannot read\n")
        yield f'  {{ shows = "a file that is not there", {call} none", {files}, status = "ReadFault", err = {err}, absent = ["{CORE}"] }},'
        long = f'make = {{ name = "{UPSET_FILE}", hex = "", length = {MOST_BYTES + 1} }}'
        yield f'  {{ shows = "a file that is too long", {call} {UPSET_FILE}", {files}, {long}, refused = "too-long", of_file = "{UPSET_FILE}", absent = ["{CORE}"] }},'


def pieces(digits, size=96):
    return [digits[at : at + size] for at in range(0, len(digits), size)]


def upset_book(title, groups):
    lines, boxes = comment([title, *LEGEND.splitlines(), *UPSET_LEGEND.splitlines()]), Boxes()
    for name, rows in groups.items():
        lines += ["", *(line for case in rows for line in boxes.files(case)), "[[group]]", f'name = "{name}"', "case = ["]
        lines += [*(boxes.row(case, shows) for case, shows in rows.items()), "]"]
    return "".join(f"{line}\n" for line in [*lines, "", *refused_groups(boxes.fronts), "", *Replays(boxes).groups()][:-1])


def main():
    if len(sys.argv) != 2:
        print(__doc__, file=sys.stderr)
        return 2
    all_cases()
    folder = Path(sys.argv[1])
    for file, (title, groups) in BOOKS.items():
        (folder / file).write_text(book(title, groups))
    file, title, groups = UPSET_BOOK
    (folder / file).write_text(upset_book(title, groups))
    return 0


if __name__ == "__main__":
    sys.exit(main())
