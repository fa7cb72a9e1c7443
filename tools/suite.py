"""The files and cases of crates/case_suite/data, made as that suite makes them, and the description of a system as text.

`books()` gives the data files by name, each with its cases. A case has its group, what it shows, the files that are there
before its calls, its calls, and what its rows say (`wanted`).
"""
import struct
import sys
import tomllib
from pathlib import Path

ROOT = Path(__file__).resolve().parent.parent
DATA = ROOT / "crates/case_suite/data"
WORKED = "worked.toml"
SOURCES = ("hex", "text", "data", "of", "program")

sys.path.insert(0, str(ROOT / "examples/model"))
from box import ACTIONS, EVENTS, QUEUING, SOURCE, Part  # noqa: E402
from random_guests import content_of  # noqa: E402


class Case:
    def __init__(self, group, row, files):
        self.name = f"{group['name']}: {row['shows']}"
        self.files = files
        self.wanted = {**group, **row}
        call = row.get("call") or row.get("words") or group.get("call") or group.get("words") or ""
        calls = [*group.get("before", []), *row.get("calls", [call])]
        self.calls = [call.split(" ") if isinstance(call, str) else call for call in calls]


def program_file(program):
    """A program file of one header, which loads words from after the headers and enters them; they may be random ones."""
    start = int(program["start"], 16)
    words = content_of(start, program["seed"], program["count"]) if "seed" in program else bytes.fromhex(program["words"])
    front = struct.pack(">6I", 0x7F454C46, 0x01020100, 0, 0, 0x00020002, 1)
    table = struct.pack(">7I", start, 52, 0, 0, 0x00340020, 0x00010000, 0)
    return front + table + struct.pack(">8I", 1, 84, start, start, len(words), len(words), 7, 4) + words


def source_of(recipe, shelf):
    if "hex" in recipe:
        return bytes.fromhex("".join(recipe["hex"].split()))
    if "text" in recipe:
        return recipe["text"].encode()
    if "data" in recipe:
        return (DATA / recipe["data"]).read_bytes()
    return shelf[recipe["of"]] if "of" in recipe else program_file(recipe["program"])


def inserted(content, insert):
    """A text with a part for each number before the first occurrence of another one."""
    parts = [insert["text"].replace("#", str(number)).replace("@", f"{number % 100:02}")
             for number in range(insert["from"], insert["to"])]  # fmt: skip
    mark = insert["before"].encode()
    return content.replace(mark, "".join(parts).encode() + mark, 1)


def made(recipe, shelf):
    """The bytes that a recipe makes, over the files that were made before."""
    content = source_of(recipe, shelf)
    if "length" in recipe:
        content = content[: recipe["length"]].ljust(recipe["length"], bytes([recipe.get("fill", 0)]))
    content = bytearray(content)
    for place, value in recipe.get("bytes", []):
        content[place] = value
    content = bytes(content)
    for old, new in recipe.get("replace", []):
        if old.encode() not in content:
            raise KeyError(f"no {old} is to be replaced")
        content = content.replace(old.encode(), new.encode(), 1)
    if "insert" in recipe:
        content = inserted(content, recipe["insert"])
    return content + bytes.fromhex("".join(recipe.get("append_hex", "").split()))


def own_recipe(group, row):
    """How the file is made that is a case's alone; what its row does not say, its group does."""
    own, base = row.get("make"), group.get("make", {})
    if own and any(source in own for source in SOURCES):
        base = {key: value for key, value in base.items() if key not in SOURCES}
    return {**base, **(own or {})}


def given(group, row, shelf):
    files = {}
    for file in row.get("file", group.get("file", [])):
        name, _, known = file.partition("=")
        files[name] = shelf[known or name]
    recipe = own_recipe(group, row)
    if recipe:
        files[recipe["name"]] = made(recipe, shelf)
    return files


def table_of(name):
    return tomllib.loads((DATA / name).read_text(encoding="utf-8"))


def put(shelf, table):
    """Puts the files of a table on a shelf. Each has a name of its own: by one that stands twice, case_suite takes the first."""
    for recipe in table.get("file", []):
        name = recipe["name"]
        if name in shelf:
            raise ValueError(f"{name}: stands twice")
        shelf[name] = made(recipe, shelf)


def books():
    """The data files in order of their names, each with its cases."""
    worked = {}
    put(worked, table_of(WORKED))
    for path in sorted(DATA.glob("*.toml")):
        table, shelf = table_of(path.name), dict(worked)
        if path.name != WORKED:
            put(shelf, table)
        yield path.name, [Case(group, row, given(group, row, shelf))
                          for group in table.get("group", []) for row in group["case"]]  # fmt: skip


# The description of a system.


def tag(name, attributes, children=()):
    text = "".join(f" {key}='{value}'" for key, value in attributes.items() if value is not None)
    inside = "".join(children)
    return f"<{name}{text}>{inside}</{name}>\n" if inside else f"<{name}{text}/>\n"


def slot_tag(number, slot):
    return tag("Slot", {"id": number, "start": f"{slot.start}us", "duration": f"{slot.duration}us",
                        "partitionId": slot.part})  # fmt: skip


def plan_tag(number, plan):
    return tag("Plan", {"id": number, "majorFrame": f"{plan.frame}us"},
               [slot_tag(place, slot) for place, slot in enumerate(plan.slots)])  # fmt: skip


def event_tags(part):
    """The health events whose action or log flag is not the usual one."""
    usual = Part("", [])
    for number, (event, action) in enumerate(zip(EVENTS, part.actions)):
        logged = part.logged >> number & 1
        if action != usual.actions[number] or not logged:
            yield tag("Event", {"name": f"XM_HM_EV_{event}", "action": f"XM_HM_AC_{ACTIONS[action]}",
                                "log": None if logged else "no"})  # fmt: skip


def port_tag(port):
    return tag("Port", {"name": port.name, "type": "queuing" if port.kind == QUEUING else "sampling",
                        "direction": "source" if port.way == SOURCE else "destination"})  # fmt: skip


def part_tag(number, part, uarts):
    areas = [tag("Area", {"start": f"{area.start:#x}", "size": f"{area.size}B",
                          "flags": "read-only" if area.read_only else None}) for area in part.areas]  # fmt: skip
    children = [tag("PhysicalMemoryAreas", {}, areas)]
    if tuple(part.need) != (0, 0):
        children.append(tag("TemporalRequirements", {"duration": f"{part.need[0]}us", "period": f"{part.need[1]}us"}))
    children.append(tag("HealthMonitor", {}, list(event_tags(part))))
    children.append(tag("Trace", {"bitmask": f"{part.trace_mask:#x}"}))
    children.append(tag("PortTable", {}, [port_tag(port) for port in part.ports]))
    console = None if part.console is None else uarts[part.console]
    flags = "system" if part.system else None
    return tag("Partition", {"id": number, "name": part.name, "flags": flags, "console": console}, children)


def end_tag(name, end, parts):
    return tag(name, {"partitionId": end[0], "portName": parts[end[0]].ports[end[1]].name})


def channel_tag(channel, parts):
    ends = [end_tag("Source", channel.source, parts)]
    ends += [end_tag("Destination", end, parts) for end in channel.destinations]
    length = {"maxMessageLength": f"{channel.length}B"}
    if channel.kind == QUEUING:
        return tag("QueuingChannel", {**length, "maxNoMessages": channel.limit}, ends)
    return tag("SamplingChannel", {**length, "refreshPeriod": f"{channel.limit}us"}, ends)


def description_text(system):
    """The description of a system of examples/model/box.py."""
    regions = [tag("Region", {"type": "ram", "start": f"{start:#x}", "size": f"{size}B"})
               for start, size in system.regions]  # fmt: skip
    plans = [plan_tag(number, plan) for number, plan in enumerate(system.plans)]
    uarts = [tag("Uart", {"id": number, "name": name}) for number, name in enumerate(system.uarts)]
    hardware = [
        tag("MemoryLayout", {}, regions),
        tag("ProcessorTable", {}, [tag("Processor", {"id": 0}, [tag("CyclicPlanTable", {}, plans)])]),
        tag("Devices", {}, uarts),
    ]
    parts = [part_tag(number, part, system.uarts) for number, part in enumerate(system.parts)]
    return tag("SystemDescription", {"version": "1", "name": system.name}, [
        tag("HwDescription", {}, hardware),
        tag("XMHypervisor", {}, [tag("PhysicalMemoryArea", {"size": f"{system.hypervisor_size}B"})]),
        tag("PartitionTable", {}, parts),
        tag("Channels", {}, [channel_tag(channel, system.parts) for channel in system.channels]),
    ])  # fmt: skip
