#!/usr/bin/env python3
"""A second simulator of the partitioning hypervisor, written apart from the program, to compare the program with it.

usage: model.py BOX --ticks N [--input P=FILE ..] [--core P=FILE ..] [--upset FILE] [--from FILE] [--save FILE]
       model.py BOX --frames N [--input P=FILE ..] [--core P=FILE ..] [--upset FILE] [--from FILE] [--save FILE]

It reads a container, runs its partitions one tick after the other, and prints the report. What is written to the consoles of
UART N goes to uartN.out. With --upset bits of the partitions flip before ticks, as `upsets.py` says. With --save the machine after
the last tick is written, and with --from a run goes on from such a file, as `saved.py` says.
"""
import re
import struct
import sys
from pathlib import Path

from box import ACTIONS, DESTINATION, EVENTS, QUEUING, SAMPLING, SOURCE, Fault, read_container
from processor import (
    ACCESS, COPROCESSOR, DIVISION, FETCH, FLOAT, ILLEGAL, OVERFLOW, PRIVILEGED, TAGGED, UNALIGNED, UNDERFLOW,
    Memory, Processor, StackFault, Trap, UnalignedReturn,
)
from saved import MOST_BYTES, read_saved, saved_file
from upsets import flip, read_upsets

WORD = 0xFFFFFFFF
KEPT = 64
MOST_TICKS = 4_000_000_000
NONE = 0xFFFFFFFF

READY, IDLE, SUSPENDED, HALTED = "ready", "idle", "suspended", "halted"
STATES = [READY, IDLE, SUSPENDED, HALTED]
COLD, WARM = 0, 1
RESET_NAMES = ["COLD", "WARM"]

# Virtual interrupts; their trap types follow 0xE0.
HARDWARE_TIMER, EXECUTION_TIMER, SHUTDOWN, SAMPLING_PORT, QUEUING_PORT, SLOT_START = range(6)
LINK = 8  # of link 0; those of the other numbers follow
INTERRUPT_TRAPS = 0xE0

# Results of hypercalls.
OK, NO_ACTION, UNKNOWN, INVALID, PERMISSION, CONFIG, MODE, NOT_AVAILABLE, NOT_ALLOWED = range(0, -9, -1)

PARTITION_ERROR, MEM_PROTECTION, UNEXPECTED_TRAP = 0, 1, 2
EVENT_OF_TRAP = {
    OVERFLOW: 1, UNDERFLOW: 1, ILLEGAL: 3, PRIVILEGED: 4, FLOAT: 5, COPROCESSOR: 6, UNALIGNED: 7, TAGGED: 8,
    DIVISION: 9, FETCH: 10, ACCESS: 11,
}
A = {name: number for number, name in enumerate(ACTIONS)}


class Refused(Exception):
    """A hypercall is refused with this result, and changes nothing else."""

    def __init__(self, result):
        super().__init__(result)
        self.result = result


class NoResult(Exception):
    """A hypercall ends without a result in %o0."""


def refuse_where(holds, result):
    if holds:
        raise Refused(result)


class Ring:
    """The last 64 entries, which are numbered from 0 on."""

    def __init__(self):
        self.entries, self.next = [], 0

    def first(self):
        return self.next - len(self.entries)

    def note(self, entry):
        """The entry is made with its number."""
        self.entries = [*self.entries, entry(self.next)][-KEPT:]
        self.next += 1

    def read(self, number):
        """The bytes of an entry, or None where it is not kept."""
        return self.entries[number - self.first()] if self.first() <= number < self.next else None

    def counts(self):
        return struct.pack(">II", self.first(), self.next)


class Timer:
    """It is due where it is armed and its clock is at or past its deadline."""

    def __init__(self):
        self.deadline = self.interval = 0

    def set(self, deadline, interval):
        self.deadline, self.interval = (deadline, interval) if deadline else (0, 0)

    def due(self, clock):
        if not self.deadline or clock < self.deadline:
            return False
        if self.interval == 0:
            self.set(0, 0)
            return True
        # The least deadline plus a multiple of the interval that is past the clock.
        later = self.deadline + ((clock - self.deadline) // self.interval + 1) * self.interval
        self.set(later if later < 1 << 63 else 0, self.interval)
        return True


class ChannelState:
    """What a channel holds: the last message of a sampling channel with its time, or the messages of a queue."""

    def __init__(self, conf):
        self.conf = conf
        self.clear()

    def clear(self):
        self.sample, self.messages = None, []

    def valid(self, now):
        return int(self.conf.limit == 0 or now - self.sample[0] <= self.conf.limit)


class Partition:
    def __init__(self, number, conf, inputs):
        self.number, self.conf = number, conf
        self.memory = Memory(conf.areas)
        self.traces, self.health = Ring(), Ring()
        self.inputs = list(inputs)
        self.resets = 0
        self.reset(COLD, 0)

    def reset(self, mode, status):
        """A cold reset loads the image again; traces, health log and used input words stay in both."""
        self.processor = Processor(self.conf.image.entry)
        self.pending, self.mask = 0, WORD
        self.exec = 0
        self.timers = [Timer(), Timer()]  # of the hardware clock and of the execution clock
        self.made = set()
        self.state = READY
        self.status = status
        self.was_reset = True
        if mode == COLD:
            self.memory.load_image(self.conf.image)
            self.resets = 0
        else:
            self.resets = (self.resets + 1) & WORD

    def raise_interrupt(self, number):
        self.pending |= 1 << number

    def due(self):
        """The lowest interrupt that is pending and not masked."""
        open_ones = self.pending & ~self.mask
        return (open_ones & -open_ones).bit_length() - 1 if open_ones else None

    def halt(self):
        self.state = HALTED
        for timer in self.timers:
            timer.set(0, 0)


class Machine:
    def __init__(self, system, inputs=None):
        self.system = system
        self.parts = [Partition(k, part, (inputs or {}).get(k, [])) for k, part in enumerate(system.parts)]
        self.channels = [ChannelState(channel) for channel in system.channels]
        self.channel_of = {}
        for channel in self.channels:
            for end in [channel.conf.source, *channel.conf.destinations]:
                self.channel_of[tuple(end)] = channel
        self.now = self.done = 0
        self.plan, self.frame_start, self.asked = 0, 0, None
        self.resets = 0
        self.halted = False
        self.upsets = []  # those that are to come
        self.lines = []
        self.uarts = [b""] * 8

    def say(self, text):
        self.lines.append(f"[{self.done}] {text}")

    def say_of(self, part, text):
        self.say(f"P{part.number} {text}")

    # The plan.

    def slot_now(self):
        """The number of the slot of this moment, or None in a gap."""
        moment = self.now - self.frame_start
        for number, slot in enumerate(self.system.plans[self.plan].slots):
            if slot.start <= moment < slot.start + slot.duration:
                return number
        return None

    def start_plan(self, plan, frame_start):
        if plan != self.plan:
            self.say(f"XM PLAN {plan}")
        self.plan, self.frame_start, self.asked = plan, frame_start, None

    # One tick.

    def strike(self):
        """The upsets of the tick that begins, in their order, whatever the state of their partitions."""
        while self.upsets and self.upsets[0].tick == self.done:
            upset = self.upsets.pop(0)
            self.say_of(self.parts[upset.part], upset.shown())
            flip(self.parts[upset.part], upset.place, upset.bit)

    def tick(self):
        self.strike()
        self.order = None  # upon another partition: the partition and what is done to it
        self.whole = None  # "HALT", or the mode of a reset of all
        self.maintenance = False
        number = self.slot_now()
        local = None
        if number is not None:
            slot = self.system.plans[self.plan].slots[number]
            part = self.parts[slot.part]
            if part.state in (READY, IDLE):
                local = part
                self.local(part, self.now - self.frame_start == slot.start)
        if self.order:
            order, part, *arguments = self.order
            order(part, *arguments)
        if self.whole == "HALT":
            self.halted = True
            self.say("XM HALT")
        elif self.whole is not None:
            self.reset_all(self.whole)
        for part in self.parts:
            if part is not local and part.state != HALTED and part.timers[0].due(self.now):
                part.raise_interrupt(HARDWARE_TIMER)
        if not self.halted:
            self.end_tick()

    def reset_all(self, mode):
        self.say(f"XM {RESET_NAMES[mode]}")
        for part in self.parts:
            self.reset_part(part, mode, 0)
        self.reset_hypervisor(mode)

    def reset_hypervisor(self, mode):
        for channel in self.channels:
            channel.clear()
        self.resets = 0 if mode == COLD else (self.resets + 1) & WORD

    def end_tick(self):
        if self.whole is not None:
            self.start_plan(0, 0)
            self.now = 0
        else:
            if self.maintenance:
                self.start_plan(1, self.now + 1)
            elif self.now + 1 - self.frame_start == self.system.plans[self.plan].frame:
                self.start_plan(self.plan if self.asked is None else self.asked, self.now + 1)
            self.now += 1
        self.done += 1

    def local(self, part, first):
        """The tick of the slot's partition, which is ready or idle."""
        if first:
            part.raise_interrupt(SLOT_START)
        if part.timers[0].due(self.now):
            part.raise_interrupt(HARDWARE_TIMER)
        if part.timers[1].due(part.exec):
            part.raise_interrupt(EXECUTION_TIMER)
        if part.state == IDLE:
            if not first and part.due() is None:
                return
            part.state = READY
        part.was_reset = False
        interrupt = part.due()
        if interrupt is not None and part.processor.enabled:
            try:
                part.processor.deliver(part.memory, INTERRUPT_TRAPS + interrupt)
                part.pending &= ~(1 << interrupt)
            except StackFault:
                self.delivery_failed(part)
        else:
            self.instruction(part)
        if not part.was_reset:
            part.exec += 1

    def instruction(self, part):
        processor = part.processor
        try:
            pair = processor.pc, processor.npc
            if processor.settle(part.memory):
                self.hypercall(part, pair)
        except Trap as trap:
            self.event(part, EVENT_OF_TRAP.get(trap.kind, UNEXPECTED_TRAP), processor.pc, trap.kind)

    # Health events.

    def event(self, part, event, word, trap=None, passes=True):
        processor = part.processor
        action = part.conf.actions[event]
        if action == A["PROPAGATE"] and not processor.enabled:
            action = A["HALT"]
        if part.conf.logged >> event & 1:
            self.log(part, event, action, word)
        if passes and action in (A["IGNORE"], A["SHUTDOWN"], A["SUSPEND"], A["SWITCH_TO_MAINTENANCE"]):
            processor.go_on()
        if action == A["SHUTDOWN"]:
            part.raise_interrupt(SHUTDOWN)
        elif action in (A["PARTITION_COLD_RESET"], A["PARTITION_WARM_RESET"]):
            self.reset_part(part, action - A["PARTITION_COLD_RESET"], 0)
        elif action == A["SUSPEND"]:
            self.suspend(part)
        elif action == A["HALT"]:
            self.halt(part)
        elif action == A["PROPAGATE"]:
            try:
                processor.deliver(part.memory, trap)
            except StackFault:
                self.delivery_failed(part)
        elif action in (A["HYPERVISOR_COLD_RESET"], A["HYPERVISOR_WARM_RESET"]):
            self.whole = action - A["HYPERVISOR_COLD_RESET"]
        elif action == A["HYPERVISOR_HALT"]:
            self.whole = "HALT"
        elif action == A["SWITCH_TO_MAINTENANCE"]:
            self.maintenance = True

    def log(self, part, event, action, word):
        part.health.note(lambda number: struct.pack(">QIBBHI", self.now, number, event, action, 0, word))
        self.say_of(part, f"HM XM_HM_EV_{EVENTS[event]} {word:08x} XM_HM_AC_{ACTIONS[action]}")

    def delivery_failed(self, part):
        """The window of the handler could not be made free. The entry is made whatever is to be logged."""
        self.log(part, MEM_PROTECTION, A["HALT"], part.processor.pc)
        self.halt(part)

    # Orders. One that does not apply to the state changes nothing and prints nothing.

    def halt(self, part):
        if part.state != HALTED:
            part.halt()
            self.say_of(part, "HALT")

    def suspend(self, part):
        if part.state in (READY, IDLE):
            part.state = SUSPENDED
            self.say_of(part, "SUSPEND")

    def resume(self, part):
        if part.state == SUSPENDED:
            part.state = READY
            self.say_of(part, "RESUME")

    def shutdown(self, part):
        if part.state != HALTED:
            part.raise_interrupt(SHUTDOWN)

    def reset_part(self, part, mode, status):
        part.reset(mode, status)
        self.say_of(part, RESET_NAMES[mode])

    def give_order(self, caller, order, target, *arguments):
        """Upon oneself it is done at once, after the result; upon another at the end of the tick."""
        part = self.parts[target]
        if part is not caller:
            self.order = (order, part, *arguments)
            return OK
        self.put_result(caller, OK)
        order(part, *arguments)
        raise NoResult

    # Hypercalls.

    def put_result(self, part, result):
        part.processor.put(8, result)

    def hypercall(self, part, pair):
        processor = part.processor
        number, *arguments = [processor.get(r) for r in range(8, 14)]
        call = CALLS.get(number)
        try:
            if call is None:
                raise Refused(UNKNOWN)
            name, count = call
            wants_pair = number in (34, 37)
            result = getattr(self, name)(part, *arguments[:count], *([pair] if wants_pair else []))
            self.put_result(part, result)
        except Refused as refused:
            self.put_result(part, refused.result)
        except NoResult:
            pass

    # Tests of hypercalls.

    def test_target(self, part, target):
        refuse_where(target != part.number and not part.conf.system, PERMISSION)
        refuse_where(target >= len(self.parts), INVALID)

    def test_system(self, part):
        refuse_where(not part.conf.system, PERMISSION)

    def test_out(self, part, address, size):
        refuse_where(not part.memory.may_write(address, size), INVALID)

    def test_in(self, part, address, size):
        refuse_where(not part.memory.may_read(address, size), INVALID)

    def made_port(self, part, number, kind):
        """The port's description and its channel."""
        refuse_where(number not in part.made or part.conf.ports[number].kind != kind, INVALID)
        return part.conf.ports[number], self.channel_of[(part.number, number)]

    def get_self(self, part):
        return part.number

    def halt_partition(self, part, a):
        self.test_target(part, a)
        return self.give_order(part, self.halt, a)

    def reset_partition(self, part, a, b, c):
        self.test_target(part, a)
        refuse_where(b not in (COLD, WARM), MODE)
        return self.give_order(part, self.reset_part, a, b, c)

    def suspend_partition(self, part, a):
        self.test_target(part, a)
        return self.give_order(part, self.suspend, a)

    def resume_partition(self, part, a):
        self.test_target(part, a)
        return self.give_order(part, self.resume, a)

    def shutdown_partition(self, part, a):
        self.test_target(part, a)
        return self.give_order(part, self.shutdown, a)

    def idle_self(self, part):
        part.state = IDLE
        return OK

    def get_partition_status(self, part, a, b):
        self.test_target(part, a)
        self.test_out(part, b, 20)
        other = self.parts[a]
        state = STATES.index(other.state)
        part.memory.copy(b, struct.pack(">IIIQ", state, other.resets, other.status, other.exec))
        return OK

    def halt_system(self, part):
        self.test_system(part)
        self.whole = "HALT"
        return OK

    def reset_system(self, part, a):
        self.test_system(part)
        refuse_where(a not in (COLD, WARM), MODE)
        self.whole = a
        return OK

    def get_system_status(self, part, a):
        self.test_system(part)
        self.test_out(part, a, 8)
        part.memory.copy(a, struct.pack(">II", self.resets, len(self.parts)))
        return OK

    def get_time(self, part, a, b):
        refuse_where(a not in (0, 1), INVALID)
        self.test_out(part, b, 8)
        part.memory.copy(b, struct.pack(">Q", (self.now, part.exec)[a]))
        return OK

    def set_timer(self, part, a, b, c, d, e):
        refuse_where(a not in (0, 1), INVALID)
        refuse_where(b >> 31 or d >> 31, INVALID)
        part.timers[a].set(b << 32 | c, d << 32 | e)
        return OK

    def switch_sched_plan(self, part, a, b):
        self.test_system(part)
        refuse_where(a == 0 or a >= len(self.system.plans), INVALID)
        self.test_out(part, b, 4)
        part.memory.copy(b, struct.pack(">I", self.plan))
        self.asked = a
        return OK

    def get_plan_status(self, part, a):
        self.test_system(part)
        self.test_out(part, a, 20)
        asked, slot = (NONE if some is None else some for some in (self.asked, self.slot_now()))
        part.memory.copy(a, struct.pack(">QIII", self.frame_start, self.plan, asked, slot))
        return OK

    def create_port(self, part, at, kind, way, length, most):
        name = b""
        while True:
            refuse_where(len(name) == 32 or not part.memory.may_read(at + len(name), 1), INVALID)
            byte = part.memory.read(at + len(name), 1)
            if byte == b"\0":
                break
            name += byte
        for number, port in enumerate(part.conf.ports):
            if port.name.encode() == name and port.kind == kind:
                break
        else:
            raise Refused(CONFIG)
        refuse_where(way != port.way, CONFIG)
        channel = self.channel_of.get((part.number, number))
        refuse_where(channel is None, CONFIG)
        refuse_where(length != channel.conf.length, CONFIG)
        refuse_where(kind == QUEUING and most != channel.conf.limit, CONFIG)
        refuse_where(number in part.made, NO_ACTION)
        part.made.add(number)
        return number

    def create_sampling_port(self, part, a, b, c):
        return self.create_port(part, a, SAMPLING, c, b, None)

    def create_queuing_port(self, part, a, b, c, d):
        return self.create_port(part, a, QUEUING, d, c, b)

    def signal_peers(self, channel, interrupt):
        for number, port in channel.conf.destinations:
            peer = self.parts[number]
            if peer.state != HALTED and port in peer.made:
                peer.raise_interrupt(interrupt)

    def write_sampling_message(self, part, a, b, c):
        port, channel = self.made_port(part, a, SAMPLING)
        refuse_where(port.way != SOURCE, NOT_ALLOWED)
        refuse_where(c == 0 or c > channel.conf.length, INVALID)
        self.test_in(part, b, c)
        channel.sample = self.now, part.memory.read(b, c)
        self.signal_peers(channel, SAMPLING_PORT)
        return OK

    def read_sampling_message(self, part, a, b, c, d):
        port, channel = self.made_port(part, a, SAMPLING)
        refuse_where(port.way != DESTINATION, NOT_ALLOWED)
        refuse_where(channel.sample is None, NO_ACTION)
        message = channel.sample[1]
        refuse_where(c < len(message), INVALID)
        self.test_out(part, b, len(message))
        self.test_out(part, d, 4)
        part.memory.copy(b, message)
        part.memory.copy(d, struct.pack(">I", channel.valid(self.now)))
        return len(message)

    def get_sampling_port_status(self, part, a, b):
        _, channel = self.made_port(part, a, SAMPLING)
        self.test_out(part, b, 16)
        time, message, valid = 0, b"", 0
        if channel.sample is not None:
            (time, message), valid = channel.sample, channel.valid(self.now)
        part.memory.copy(b, struct.pack(">QII", time, len(message), valid))
        return OK

    def send_queuing_message(self, part, a, b, c):
        port, channel = self.made_port(part, a, QUEUING)
        refuse_where(port.way != SOURCE, NOT_ALLOWED)
        refuse_where(c == 0 or c > channel.conf.length, INVALID)
        self.test_in(part, b, c)
        refuse_where(len(channel.messages) == channel.conf.limit, NOT_AVAILABLE)
        channel.messages.append(part.memory.read(b, c))
        self.signal_peers(channel, QUEUING_PORT)
        return OK

    def receive_queuing_message(self, part, a, b, c):
        port, channel = self.made_port(part, a, QUEUING)
        refuse_where(port.way != DESTINATION, NOT_ALLOWED)
        refuse_where(not channel.messages, NOT_AVAILABLE)
        message = channel.messages[0]
        refuse_where(c < len(message), INVALID)
        self.test_out(part, b, len(message))
        part.memory.copy(b, channel.messages.pop(0))
        return len(message)

    def get_queuing_port_status(self, part, a, b):
        _, channel = self.made_port(part, a, QUEUING)
        self.test_out(part, b, 8)
        part.memory.copy(b, struct.pack(">II", len(channel.messages), channel.conf.limit))
        return OK

    def trace_event(self, part, a, b):
        self.test_in(part, b, 8)
        refuse_where(a & part.conf.trace_mask == 0, NO_ACTION)
        load = part.memory.read(b, 8)
        part.traces.note(lambda number: struct.pack(">QII", self.now, a, number) + load)
        self.say_of(part, f"TRACE {a:08x} {load.hex()}")
        return OK

    def read_ring(self, part, a, b, c, size, ring_of):
        self.test_target(part, a)
        entry = ring_of(self.parts[a]).read(b)
        refuse_where(entry is None, NOT_AVAILABLE)
        self.test_out(part, c, size)
        part.memory.copy(c, entry)
        return OK

    def ring_status(self, part, a, b, ring_of):
        self.test_target(part, a)
        self.test_out(part, b, 8)
        part.memory.copy(b, ring_of(self.parts[a]).counts())
        return OK

    def trace_read(self, part, a, b, c):
        return self.read_ring(part, a, b, c, 24, lambda other: other.traces)

    def trace_status(self, part, a, b):
        return self.ring_status(part, a, b, lambda other: other.traces)

    def hm_raise_event(self, part, a):
        """pc is past the call already and is not passed over again."""
        self.put_result(part, OK)
        self.event(part, PARTITION_ERROR, a, passes=False)
        raise NoResult

    def hm_read(self, part, a, b, c):
        return self.read_ring(part, a, b, c, 20, lambda other: other.health)

    def hm_status(self, part, a, b):
        return self.ring_status(part, a, b, lambda other: other.health)

    def set_irqmask(self, part, a):
        part.mask |= a
        return OK

    def clear_irqmask(self, part, a):
        part.mask &= ~a
        return OK

    def write_console(self, part, a, b):
        refuse_where(b > 1024, INVALID)
        self.test_in(part, a, b)
        if b:
            content = part.memory.read(a, b)
            self.say_of(part, f"CON {shown(content)}")
            if part.conf.console is not None:
                self.uarts[part.conf.console] += content
        return b

    def read_input(self, part, a):
        refuse_where(not part.inputs, NOT_AVAILABLE)
        self.test_out(part, a, 4)
        part.memory.copy(a, struct.pack(">I", part.inputs.pop(0)))
        return OK

    def undone(self, part, pair):
        """The call is as if it had not been made, but for windows that it spilled, and is an event instead."""
        part.processor.pc, part.processor.npc = pair
        self.event(part, MEM_PROTECTION, pair[0])
        raise NoResult

    def iret(self, part, pair):
        try:
            part.processor.return_from_trap(part.memory)
        except UnalignedReturn:
            raise Refused(INVALID) from None
        except StackFault:
            self.undone(part, pair)
        raise NoResult

    def set_psr(self, part, a):
        part.processor.put_icc(a >> 20)
        part.processor.enabled = bool(a >> 5 & 1)
        return OK

    def set_tbr(self, part, a):
        part.processor.base = a & ~0xFFF
        return OK

    def flush_regwin(self, part, pair):
        try:
            part.processor.flush_windows(part.memory)
        except StackFault:
            self.undone(part, pair)
        return OK

    def raise_ipvi(self, part, a):
        for link in self.system.links:
            if (link.source, link.number) == (part.number, a):
                peer = self.parts[link.destination]
                if peer.state != HALTED:
                    peer.raise_interrupt(LINK + a)
                return OK
        raise Refused(INVALID)

    # Resets from outside, between two ticks: they print nothing.

    def reset_between(self, part, mode, status):
        """Of one partition, or of all and the hypervisor, whose clock and plans begin again."""
        if part is not None:
            self.parts[part].reset(mode, status)
            return
        for each in self.parts:
            each.reset(mode, 0)
        self.reset_hypervisor(mode)
        self.now = 0
        self.plan, self.frame_start, self.asked = 0, 0, None

    # The report.

    def run(self, ticks, resets=()):
        """This many ticks more. Resets are a tick's number, before which they are done, and what reset_between takes."""
        end = self.done + ticks
        self.lines = [f"SYSTEM parts={len(self.parts)} plans={len(self.system.plans)} ticks={end}"]
        waiting = list(resets)
        while self.done < end and not self.halted:
            while waiting and waiting[0][0] == self.done:
                self.reset_between(*waiting.pop(0)[1:])
            self.tick()
        for part in self.parts:
            state = f"END P{part.number} {part.state} resets={part.resets}"
            self.lines.append(f"{state} exec={part.exec} pc={part.processor.pc:08x}")
        state = "halted" if self.halted else "running"
        self.lines.append(f"END XM {state} plan={self.plan} clock={self.now} ticks={self.done}")
        return "".join(line + "\n" for line in self.lines)

    def core_file(self, number):
        """Everything of a partition, as the core file has it."""
        part = self.parts[number]
        processor = part.processor
        state = STATES.index(part.state)
        out = struct.pack(">4sHBBIIQ", b"XMCO", 1, number, state, part.resets, part.status, part.exec)
        out += struct.pack(">III", processor.pc, processor.npc, processor.y)
        out += bytes([processor.icc(), processor.cwp, processor.inv, processor.enabled])
        out += struct.pack(">III", processor.base, part.pending, part.mask)
        for timer in part.timers:
            out += struct.pack(">BQQ", int(timer.deadline != 0), timer.deadline, timer.interval)
        out += struct.pack(">II", len(part.inputs), sum(1 << port for port in part.made))
        out += struct.pack(">136I", *processor.globals, *processor.windows)
        for ring, size in ((part.traces, 24), (part.health, 20)):
            out += ring.counts() + b"".join(ring.entries).ljust(KEPT * size, b"\0")
        out += bytes([len(part.memory.areas)])
        for start, content, _ in part.memory.areas:
            out += struct.pack(">II", start, len(content)) + content
        return out


# Each hypercall by its number: what does it, and how many arguments it has.
CALLS = {
    1: ("get_self", 0), 2: ("halt_partition", 1), 3: ("reset_partition", 3), 4: ("suspend_partition", 1),
    5: ("resume_partition", 1), 6: ("shutdown_partition", 1), 7: ("idle_self", 0), 8: ("get_partition_status", 2),
    9: ("halt_system", 0), 10: ("reset_system", 1), 11: ("get_system_status", 1), 12: ("get_time", 2),
    13: ("set_timer", 5), 14: ("switch_sched_plan", 2), 15: ("get_plan_status", 1), 16: ("create_sampling_port", 3),
    17: ("write_sampling_message", 3), 18: ("read_sampling_message", 4), 19: ("get_sampling_port_status", 2),
    20: ("create_queuing_port", 4), 21: ("send_queuing_message", 3), 22: ("receive_queuing_message", 3),
    23: ("get_queuing_port_status", 2), 24: ("trace_event", 2), 25: ("trace_read", 3), 26: ("trace_status", 2),
    27: ("hm_raise_event", 1), 28: ("hm_read", 3), 29: ("hm_status", 2), 30: ("set_irqmask", 1),
    31: ("clear_irqmask", 1), 32: ("write_console", 2), 33: ("read_input", 1), 34: ("iret", 0), 35: ("set_psr", 1),
    36: ("set_tbr", 1), 37: ("flush_regwin", 0), 38: ("raise_ipvi", 1),
}


def shown(content):
    """Console bytes as the report has them."""

    def one(byte):
        if byte == 0x0A:
            return "\\n"
        if byte == 0x5C:
            return "\\\\"
        return chr(byte) if 0x20 <= byte <= 0x7E else f"\\x{byte:02x}"

    return "".join(map(one, content))


class Usage(Exception):
    """The words are no command."""


class Refusal(Exception):
    """What was read is refused."""


class DeviceFault(Exception):
    """A file cannot be read or written, with the status."""

    def __init__(self, status, text):
        super().__init__(text)
        self.status = status


def number_of(word, most):
    if not re.fullmatch("0|[1-9][0-9]{0,9}", word) or int(word) > most:
        raise Usage
    return int(word)


def read_words(words):
    """The container's name, the unit and the number of the length, the files of the two options and those of the whole run."""
    if not words or not words[0] or words[0].startswith("--") or len(words) % 2 == 0:
        raise Usage
    length, files, whole = None, {"--input": {}, "--core": {}}, {"--upset": None, "--from": None, "--save": None}
    options = list(zip(words[1::2], words[2::2]))
    for option, word in options:
        if option in ("--ticks", "--frames"):
            if length is not None:
                raise Usage
            length = option, number_of(word, MOST_TICKS)
        elif option in whole:
            if whole[option] is not None or not word or word.startswith("--"):
                raise Usage
            whole[option] = word
        elif option in files:
            number, _, name = word.partition("=")
            number = number_of(number, 31)
            if not name or name.startswith("--") or number in files[option]:
                raise Usage
            files[option][number] = name
        else:
            raise Usage
    if length is None or whole["--from"] is not None and files["--input"]:
        raise Usage
    order = [word.split("=", 1) for option, word in options if option in files]
    return words[0], length, {**files, **whole}, [(int(number), name) for number, name in order]


def bytes_of(folder, name):
    try:
        return (folder / name).read_bytes()
    except OSError:
        raise DeviceFault(3, f"{name}: cannot read") from None


def words_of(content):
    return struct.unpack(f">{len(content) // 4}I", content)


def write(folder, name, content):
    try:
        (folder / name).write_bytes(content)
    except OSError:
        raise DeviceFault(4, f"{name}: cannot write") from None


def prepared(words, folder):
    """The machine of a run, how many ticks it is to do, the files that are named, and the digest of the container."""
    box, (unit, count), files, order = read_words(words)
    content_of_box = bytes_of(folder, box)
    try:
        system = read_container(content_of_box)
    except Fault as fault:
        raise Refusal(f"{box}: {fault}") from None
    for number, name in order:
        if number >= len(system.parts):
            raise Refusal(f"{name}: partition id={number}")
    inputs = {}
    for number, name in files["--input"].items():
        content = bytes_of(folder, name)
        if len(content) % 4:
            raise Refusal(f"{name}: input length={len(content)}")
        inputs[number] = words_of(content)
    digest = content_of_box[-16:]
    machine = Machine(system, inputs) if files["--from"] is None else machine_in(folder, files["--from"], system, digest)
    ticks = count * system.plans[0].frame if unit == "--frames" else count
    if machine.done + ticks > MOST_TICKS:
        raise Refusal(f"{box}: ticks asked={machine.done + ticks}")
    if files["--upset"] is not None:
        machine.upsets = upsets_in(folder, files["--upset"], system, machine.done + ticks, machine.done)
    return machine, ticks, files, digest


def machine_in(folder, name, system, digest):
    try:
        return read_saved(bytes_of(folder, name), system, digest, Machine)
    except Fault as fault:
        raise Refusal(f"{name}: {fault}") from None


def upsets_in(folder, name, system, end, begun=0):
    try:
        return read_upsets(bytes_of(folder, name), system.parts, end, begun)
    except Fault as fault:
        raise Refusal(f"{name}: {fault}") from None


def made_in(machine, files, digest):
    """The core files, and the saved machine, by their names."""
    made = {name: machine.core_file(number) for number, name in files["--core"].items()}
    if files["--save"] is not None:
        content = saved_file(machine, digest)
        if len(content) > MOST_BYTES:
            raise Refusal(f"{files['--save']}: length found={len(content)}")
        made[files["--save"]] = content
    return made


def run_words(words, folder=Path(), resets=()):
    """The report of a run with resets between its ticks, and the files that are made of it by their names."""
    machine, ticks, files, digest = prepared(words, folder)
    report = machine.run(ticks, resets)
    return report, made_in(machine, files, digest)


def run_in(words, folder):
    """The report of a run; the files that are made of it and those of the UARTs are written to the folder."""
    machine, ticks, files, digest = prepared(words, folder)
    report = machine.run(ticks)
    made = made_in(machine, files, digest)
    made |= {f"uart{place}.out": content for place, content in enumerate(machine.uarts) if content}
    for name, content in made.items():
        write(folder, name, content)
    return report


def main():
    try:
        report = run_in(sys.argv[1:], Path())
    except Usage:
        print("model: usage", file=sys.stderr)
        return 2
    except Refusal as refusal:
        print(f"model: {refusal}", file=sys.stderr)
        return 1
    except DeviceFault as fault:
        print(f"model: {fault}", file=sys.stderr)
        return fault.status
    sys.stdout.write(report)
    return 0


if __name__ == "__main__":
    sys.exit(main())
