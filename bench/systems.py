"""Guests that the scripts of this folder write word by word, and systems of such partitions, one area of 64 KiB after the other."""
import re
import struct

from measuring import Profile, container, output_of, stop, under_callgrind

# Where the first partition's area begins, and how large each is.
START, SIZE = 0x40100000, 0x10000
# Numbers of calls.
HALT, SUSPEND, SET_TIMER = 2, 4, 13
# A call, and what stands in its place.
CALL, NOP = 0x91D02070, 0x01000000
O0 = 8

HEAD = """<SystemDescription version="1" name="{name}">
 <HwDescription>
  <MemoryLayout><Region type="stram" start="0x40000000" size="4MB"/></MemoryLayout>
  <ProcessorTable><Processor id="0"><CyclicPlanTable><Plan id="0" majorFrame="16ms">
{slots}  </Plan></CyclicPlanTable></Processor></ProcessorTable>
 </HwDescription>
 <XMHypervisor console="None"><PhysicalMemoryArea size="64KB"/></XMHypervisor>
 <PartitionTable>
{partitions} </PartitionTable>
{channels}</SystemDescription>
"""
SLOT = '   <Slot id="{id}" start="{start}us" duration="{duration}us" partitionId="{id}"/>\n'
PARTITION = """  <Partition id="{id}" name="P{id}">
   <PhysicalMemoryAreas><Area start="{area:#x}" size="64KB"/></PhysicalMemoryAreas>
{ports}  </Partition>
"""


def area_of(id):
    return START + id * SIZE


def description(name, count, ports="", channels=""):
    """Partition 0 has all of the frame but 50 microseconds for each of the others."""
    first = 16_000 - 50 * (count - 1)
    slots = SLOT.format(id=0, start=0, duration=first)
    slots += "".join(SLOT.format(id=id, start=first + 50 * (id - 1), duration=50) for id in range(1, count))
    partitions = "".join(PARTITION.format(id=id, area=area_of(id), ports=ports) for id in range(count))
    return HEAD.format(name=name, slots=slots, partitions=partitions, channels=channels)


def set_register(register, value):
    """`sethi` and `or`."""
    return [0x01000000 | register << 25 | value >> 10, 0x80102000 | register << 25 | register << 14 | value & 0x3FF]


def call(*values, word=CALL):
    """The word, with a call's number in %o0 and its arguments in the registers after it."""
    return [part for register, value in enumerate(values, O0) for part in set_register(register, value)] + [word]


def elf(base, words, data=b"", at=0):
    """An image of these words, with data at a place after them."""
    content = struct.pack(f">{len(words)}I", *words).ljust(at, b"\0") + data
    head = b"\x7fELF\x01\x02\x01" + bytes(9) + struct.pack(">HHIIIIIHHHHHH", 2, 2, 1, base, 52, 0, 0, 52, 32, 1, 0, 0, 0)
    return head + struct.pack(">8I", 1, 84, base, base, len(content), len(content), 7, 4) + content


def written(images, name, folder):
    """The files of these images."""
    paths = [f"{folder}/{name}.{id}.elf" for id in range(len(images))]
    for path, image in zip(paths, images):
        with open(path, "wb") as file:
            file.write(image)
    return paths


def boxed(binary, name, text, images, folder):
    """The container of a description with these images."""
    return container(binary, name, text, written(images, name, folder), folder)


def executed(command):
    """How many instructions partition 0 executed in a run, in which it has to go on."""
    report = output_of(command)
    found = re.search(r"^END P0 ready .* exec=(\d+) ", report, re.M)
    if not found:
        stop(f"partition 0 did not go on:\n{report[-500:]}")
    return int(found[1])


def counted(binary, box, ticks, folder):
    """Host instructions of a run, and the instructions that partition 0 executed."""
    path = f"{folder}/callgrind.out"
    done = executed(under_callgrind([binary, "run", box, "--ticks", str(ticks)], path))
    return Profile(path, "").total, done


def each_round(binary, boxes, words, lengths, folder):
    """Host instructions of a round of partition 0 in the first of two systems, more than in the second; it has this many words."""
    spent = []
    for box in boxes:
        (before, first), (after, last) = (counted(binary, box, ticks, folder) for ticks in lengths)
        spent.append(after - before)
    return (spent[0] - spent[1]) * words / (last - first)
