"""usage: xm flows XML

Who can reach whom in a system. First the program's own answer, `xm_run flows XML`; where this tool finds other groups, a
line says so. Then by names:

  P1 control: group P0 sensors, P1 control; steered by P2 chief
  steers: P2 chief (flag system)
  unsteered no

A change in a partition outside the group reaches a partition through no channel and no link. Who steers can halt, suspend
or reset it, reset or halt the hypervisor, or start another plan: partitions with the flag `system`, and those whose health
table has an action on the hypervisor or on the plan, by the event that is named. `unsteered yes` is the premise under which
groups say everything: no partition can do any of this.
"""

from collections.abc import Iterator

from xm_tools.failure import UNMET, WELL
from xm_tools.groups import Group, group_of, steering_of
from xm_tools.program import needed
from xm_tools.system import System
from xm_tools.systems import read_system
from xm_tools.words import words_of

USAGE = "xm flows XML"


def listed(system: System, partitions: list[int]) -> str:
    return ", ".join(system.title(partition) for partition in partitions) or "nobody"


def flow_lines(system: System, groups: list[Group]) -> Iterator[str]:
    steering = steering_of(system)
    for group in groups:
        others = [partition for partition in steering if partition != group.partition]
        yield f"{system.title(group.partition)}: group {listed(system, list(group.members))}; steered by {listed(system, others)}"
    for partition, rights in steering.items():
        yield f"steers: {system.title(partition)} ({'; '.join(rights)})"
    yield f"unsteered {'no' if steering else 'yes'}"


def run(given: list[str]) -> int:
    path = words_of(USAGE, given, 1, 1).plain[0]
    system = read_system(path)
    groups = [group_of(system, partition.number) for partition in system.partitions]
    answered = needed(["flows", path])
    print(answered, end="")
    for line in flow_lines(system, groups):
        print(line)
    if answered.splitlines() == [group.line() for group in groups]:
        return WELL
    print(f"{path}: the tool disagrees with xm_run, which decides: " + ", ".join(group.line() for group in groups))
    return UNMET
