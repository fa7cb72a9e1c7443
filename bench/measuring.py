"""What the scripts of this folder share: the program and the guests that are measured, what callgrind counts, and rates."""
import math
import os
import re
import resource
import subprocess
import sys
import time
from collections import defaultdict

ROOT = os.path.dirname(os.path.dirname(os.path.realpath(__file__)))
BENCH = f"{ROOT}/bench"
# Ticks under callgrind, and ticks for the rate.
COUNTED = (2_000_000, 8_000_000)
TIMED = (50_000_000, 250_000_000)
TURNS = 7
# The guests over which rates are compared. Each is one C file, whose first lines say what it executes, and has no end.
GUESTS = ["workload", "records", "lists", "copies", "filters", "wide_sums", "doubles", "recursion", "sorts"]


def image_of(guest):
    """The raw image of one of the guests, for `bare`; it is made of the file beside it."""
    return f"{BENCH}/{'' if guest == 'workload' else 'guests/'}{guest}.bin"


def stop(why):
    sys.exit(f"{os.path.basename(sys.argv[0])}: {why}")


def program():
    """The program that `./xm_run --prove` proves and builds, or the one that PROGRAM names."""
    given = os.environ.get("PROGRAM")
    if given:
        return given
    line = ""
    with subprocess.Popen([f"{ROOT}/xm_run", "--prove"], stderr=subprocess.PIPE, text=True) as proving:
        for line in proving.stderr:
            sys.stderr.write(line)
    if proving.returncode:
        stop("the program is not built")
    # The last line is `proved DATE: FILE`.
    return line.rstrip("\n").split(": ", 1)[1]


def programs():
    """The program that is measured, and the one that BEFORE names, by what each is called."""
    both = {"program": os.path.abspath(program())}
    if before := os.environ.get("BEFORE"):
        both["before"] = os.path.abspath(before)
    return both


def output_of(command, **more):
    """What a command writes to standard output; it has to end with status 0."""
    done = subprocess.run(command, stdout=subprocess.PIPE, stderr=subprocess.PIPE, stdin=subprocess.DEVNULL, text=True, **more)
    if done.returncode:
        stop(f"{' '.join(command)}: status {done.returncode}\n{done.stdout[-500:]}{done.stderr[-500:]}")
    return done.stdout


def container(binary, name, text, images, folder):
    """The container of a description, with the image of each of its partitions."""
    described, configuration, box = (f"{folder}/{name}.{ending}" for ending in ("xml", "xmc", "xmp"))
    with open(described, "w") as file:
        file.write(text)
    output_of([binary, "xmcparser", described, configuration])
    packed = []
    for number, image in enumerate(images):
        made = f"{folder}/{name}.{number}.xef"
        output_of([binary, "xmeformat", "build", image, made])
        packed.append(f"{number}={made}")
    output_of([binary, "xmpack", "build", configuration, box, *packed])
    return box


def high_water(process):
    """The most memory that a process has held so far, in KiB; 0 where it has ended."""
    with open(f"/proc/{process}/status") as status:
        held = re.search(r"^VmHWM:\s*(\d+) kB$", status.read(), re.M)
    return int(held[1]) if held else 0


def waited(process):
    """The status of a process at its end, what it used, and the most memory that it held at once, in KiB.

    The memory is asked for while it runs: what the kernel reports of a child afterwards is never below what this
    script held when it started it.
    """
    held = 0
    while True:
        held = max(held, high_water(process))
        ended, status, usage = os.wait4(process, os.WNOHANG)
        if ended:
            return status, usage, held
        time.sleep(0.001)


def under_callgrind(command, path):
    """The command under callgrind, which writes what it counted to a file."""
    return [
        "valgrind", "--tool=callgrind", "--dump-instr=yes", "--compress-pos=no", "--compress-strings=no",
        f"--callgrind-out-file={path}", *command,
    ]  # fmt: skip


class Profile:
    """What callgrind counted: host instructions in all, by function, and at each address of the program."""

    def __init__(self, path, name):
        self.total = 0
        self.by_function = defaultdict(int)
        self.by_address = defaultdict(int)
        function = ours = None
        called = False
        with open(path) as lines:
            for line in lines:
                if line.startswith("fn="):
                    function = line[3:].strip()
                elif line.startswith("ob="):
                    ours = os.path.basename(line[3:].strip()) == name
                elif line.startswith("totals:"):
                    self.total = int(line.split()[1])
                elif line.startswith("calls="):
                    called = True
                elif line.startswith("0x"):
                    # The line after `calls=` has the cost of what was called, which stands there itself.
                    if not called:
                        fields = line.split()
                        self.by_function[function] += int(fields[-1])
                        if ours:
                            self.by_address[int(fields[0], 16)] += int(fields[-1])
                    called = False


def spent(profiles):
    """The host instructions that the longer of two runs has more."""
    before, after = profiles
    return after.total - before.total


def used():
    """Seconds of processor time of all commands that have ended."""
    usage = resource.getrusage(resource.RUSAGE_CHILDREN)
    return usage.ru_utime + usage.ru_stime


def seconds_of(run):
    """Processor time of a run, so that what else the machine does counts little."""
    before = used()
    run()
    return used() - before


def rates(measured):
    """Millions of guest instructions a second of processor time, by name; each has two runs with the guest instructions of each.

    The difference of the two counts, each the best of some turns, in which all are measured one after the other.
    """
    best = {}
    for _ in range(TURNS):
        for name, runs in measured.items():
            for guests, run in runs:
                seconds = seconds_of(run)
                best[name, guests] = min(seconds, best.get((name, guests), seconds))
    found = {}
    for name, ((short, _), (long, _)) in measured.items():
        found[name] = (long - short) / (best[name, long] - best[name, short]) / 1e6
    return found


def mean(values):
    """The geometric mean: that of ratios is the ratio of the means."""
    return math.exp(sum(map(math.log, values)) / len(values))
