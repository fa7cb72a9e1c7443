#!/usr/bin/env python3
"""The flight that attitude control is for: a spacecraft that turns, its gyro with faults, and what each partition has to print.

usage: flight.py words OUT       the words of the gyro, for `run BOX --input 1=OUT`
       flight.py texts           writes NAME.txt of each partition
       flight.py check REPORT    compares the report of a run of FRAMES frames; ends with 1 where something differs

The spacecraft, the gyro and what the partitions do in each frame are worked out here in doubles of this machine, by no part of
xm_run: so the words of the gyro answer the torques that the partitions will ask for.
"""
import re
import struct
import sys
from dataclasses import dataclass, field
from math import copysign
from pathlib import Path

HERE = Path(__file__).resolve().parent
NAMES = ["fdir", "gyro", "control", "wheel"]
FRAME = 20000
FRAMES = 60

# The spacecraft: kilogram square metres, radians a second at first, the seconds that a frame stands for.
INERTIA, FIRST_RATE, STEP_SECONDS = 1.8, 0.02, 0.25
# The controller and the wheel, as control.c and wheel.c have them.
ANGLE_GAIN, RATE_GAIN, MOST_TORQUE = 0.3, 1.5, 0.02
WHEEL_INERTIA, FIRST_SPEED = 0.0012, 52.0
# The gyro: radians a second for a count in 1000 microseconds, and the divider of a good word.
RATE_OF_COUNT, DIVIDER, MOST_MICROSECONDS = 2.0e-6, 4, 4000
# Words with a wrong check, and with the divider 0, by their numbers.
BAD_CHECKS, BAD_DIVIDERS = {6}, {12, 20, 27}
MOST_FAILURES = 3


def word_of(number: int, rate: float) -> int:
    """The word of the gyro for a rate, with the fault that it has."""
    counts = round(rate / RATE_OF_COUNT) & 0xFFFF
    divider = 0 if number in BAD_DIVIDERS else DIVIDER
    word = (number & 0xFF) << 24 | divider << 20 | counts
    check = 0
    for digit in range(8):
        check ^= word >> 4 * digit & 15
    return word | (check ^ (1 if number in BAD_CHECKS else 0)) << 16


def rate_of(word: int) -> float:
    counts = (word & 0x7FFF) - (word & 0x8000)
    return counts * RATE_OF_COUNT * (1000.0 / (MOST_MICROSECONDS // (word >> 20 & 15)))


@dataclass
class Flight:
    """All that happens in the frames, and what is printed."""

    rate: float = FIRST_RATE
    angle: float = 0.0
    speed: float = FIRST_SPEED
    words: list[int] = field(default_factory=list)
    texts: dict[str, list[str]] = field(default_factory=lambda: {name: [] for name in NAMES})
    events: list[int] = field(default_factory=list)  # the frames with an event
    plans: list[tuple[int, int]] = field(default_factory=list)  # the first frame of each new plan
    resets: int = 0
    failures: int = 0
    new_event: bool = False
    safe: bool = False
    stage: str = "nominal"

    def say(self, name: str, text: str) -> None:
        self.texts[name].append(f"{name}: {text}\n")

    def fdir(self, frame: int) -> str:
        """Its slot; the answer is how the gyro begins in this frame."""
        begins = "goes on"
        if self.new_event:
            self.say("fdir", "partition 1 event 9 action 3")
            self.failures += 1
        if self.new_event and self.failures == MOST_FAILURES and self.stage == "nominal":
            self.say("fdir", "ask for plan 1")
            self.plans.append((frame + 1, 1))
            self.safe, self.stage = True, "asked"
        elif self.stage == "asked":
            begins, self.stage = "tests", "tested"
        elif self.stage == "tested":
            self.say("fdir", "gyro test 1")
            self.say("fdir", "ask for plan 2")
            self.plans.append((frame + 1, 2))
            begins, self.safe, self.stage = "starts", False, "restored"
        self.new_event = False
        return begins

    def gyro(self, frame: int, begins: str) -> float | None:
        """Its slot; the answer is the rate that it writes."""
        if begins == "tests":
            self.say("gyro", "test 1")
            return None
        if begins == "starts" or frame == 0:
            self.resets = 0
            self.say("gyro", "start after resets 0")
            return None
        number = len(self.words)
        word = word_of(number, self.rate)
        self.words.append(word)
        if number in BAD_CHECKS:
            self.say("gyro", f"dropped word {number}")
            return None
        if number in BAD_DIVIDERS:
            self.resets += 1
            self.events.append(frame)
            self.new_event = True
            self.say("gyro", f"start after resets {self.resets}")
            return None
        return rate_of(word)

    def control(self, measured: float | None) -> float:
        if measured is None:
            return 0.0
        self.angle += measured * STEP_SECONDS
        torque = -ANGLE_GAIN * self.angle - RATE_GAIN * measured
        if abs(torque) > MOST_TORQUE:
            torque = copysign(MOST_TORQUE, torque)
        return 0.0 if self.safe else torque

    def wheel(self, step: int, torque: float) -> None:
        self.speed = self.speed - torque / WHEEL_INERTIA * STEP_SECONDS
        self.say("wheel", f"step {step} torque {int(torque * 1e6)} speed {int(self.speed * 1e6)}")

    def frame(self, frame: int) -> None:
        begins = self.fdir(frame)
        torque = self.control(self.gyro(frame, begins))
        self.wheel(frame + 1, torque)
        self.rate += torque / INERTIA * STEP_SECONDS

    @staticmethod
    def of(frames: int) -> "Flight":
        flight = Flight()
        for frame in range(frames):
            flight.frame(frame)
        return flight


def differences(report: str, flight: Flight) -> list[str]:
    """What a report has that the flight has not, and what it lacks."""
    faults = []
    for number, name in enumerate(NAMES):
        lines = re.findall(rf"^\[\d+\] P{number} CON (.*)$", report, re.M)
        written = "".join(lines).replace("\\n", "\n")
        if written != "".join(flight.texts[name]):
            faults.append(f"{name}: the console differs")
        if not re.search(rf"^END P{number} (idle|ready) ", report, re.M):
            faults.append(f"{name}: it did not go on to the end")
    events = re.findall(r"^\[(\d+)\] P(\d) HM (\S+) \S+ (\S+)$", report, re.M)
    found = [(int(tick) // FRAME, part, event, action) for tick, part, event, action in events]
    wanted = [(frame, "1", "XM_HM_EV_SPARC_DIVIDE_EXCEPTION", "XM_HM_AC_PARTITION_WARM_RESET") for frame in flight.events]
    if found != wanted:
        faults.append(f"health events: {found}, and not {wanted}")
    plans = [(int(tick), int(plan)) for tick, plan in re.findall(r"^\[(\d+)\] XM PLAN (\d+)$", report, re.M)]
    if plans != [(frame * FRAME - 1, plan) for frame, plan in flight.plans]:
        faults.append(f"plans: {plans}, and not those of frames {flight.plans}")
    return faults


def main(words: list[str]) -> int:
    flight = Flight.of(FRAMES)
    match words:
        case ["words", out]:
            Path(out).write_bytes(struct.pack(f">{len(flight.words)}I", *flight.words))
        case ["texts"]:
            for name, lines in flight.texts.items():
                (HERE / f"{name}.txt").write_text("".join(lines))
        case ["check", report]:
            faults = differences(Path(report).read_text(encoding="utf-8"), flight)
            print("\n".join(faults) or f"as expected: {FRAMES} frames, {len(flight.events)} recoveries, {len(flight.plans)} plans")
            return 1 if faults else 0
        case _:
            sys.exit(__doc__)
    return 0


if __name__ == "__main__":
    sys.exit(main(sys.argv[1:]))
