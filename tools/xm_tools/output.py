"""Lines with the colours of their partitions, where they go to a terminal and there is rich."""

import importlib.util
import sys
from collections.abc import Iterable

COLOURS = ["cyan", "green", "yellow", "magenta", "blue", "red", "bright_cyan", "bright_green"]


def show(lines: Iterable[tuple[str, int | None]]) -> None:
    """Prints lines, each with the number of its partition or None."""
    if not sys.stdout.isatty() or importlib.util.find_spec("rich") is None:
        for line, _ in lines:
            print(line)
        return
    from rich.console import Console
    from rich.text import Text

    console = Console(highlight=False, soft_wrap=True)
    for line, partition in lines:
        console.print(Text(line, style="bold" if partition is None else COLOURS[partition % len(COLOURS)]))
