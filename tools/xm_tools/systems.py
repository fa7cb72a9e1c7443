"""The system in a file: a description or a container, by what the file begins with."""

from xm_tools.container import read_container
from xm_tools.description import read_description
from xm_tools.failure import Unusable
from xm_tools.files import content_of
from xm_tools.reference import reference
from xm_tools.rules import all_broken
from xm_tools.system import System
from xm_tools.texts import Text


def read_system(path: str) -> System:
    """A system that keeps the rules. Anything else is Unusable."""
    content = content_of(path)
    if content.startswith(b"XMPK"):
        return read_container(path, content).system
    system = read_description(path, content)
    broken = next(iter(all_broken(system)), None)
    if broken:
        rule = reference().rules[broken.rule]
        raise Unusable(f"{Text(path, content).place(broken.at)}: rule {rule.number} ({rule.name}): {rule.holds}")
    return system
