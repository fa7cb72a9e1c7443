"""usage: xm script show SCRIPT
       xm script make TEXT SCRIPT [--slots SYSTEM]

A script is all that a partition receives from the others in a run: `xm_run run .. --script P=SCRIPT` writes one, and
`xm_run alone BOX P SCRIPT` replays the partition by it. `show` prints its text; `make` makes the script of a text, so that
a partition can be tested alone, under messages, orders and events that are written by hand.

  script partition=3
  [0] away x4000                    4000 ticks that are not the partition's own
  [4000] begins                     a slot of its own begins
  [4001] own x999                   the rest of the slot
  [5000] away put=0:0000002a        another partition put a message into the channel of port 0

The tick of a line is the sum of those before it. A tick that is not counted may have, in this order or another one:
put=PORT:HEX, take=PORT or signal=NUMBER; order=halt|suspend|resume|shutdown|cold:STATUS|warm:STATUS;
hypervisor=cold|warm|halt; seen=HEX or seen=none. What follows a # is no part of it.

With --slots the ticks that no line has are those of plan 0 of the description or container SYSTEM, a line need not say whose
slot its tick is in, and the last line may be `[TICK] end`:

  script partition=3
  [5000] put=0:0000002a
  [12000] end
"""

from xm_tools.failure import WELL, Unusable
from xm_tools.files import content_of, text_of, write_over
from xm_tools.script import read_script, spelled
from xm_tools.script_text import script_of, text_lines
from xm_tools.systems import read_system
from xm_tools.words import words_of

USAGE = "xm script show SCRIPT | xm script make TEXT SCRIPT [--slots SYSTEM]"


def run(given: list[str]) -> int:
    words = words_of(USAGE, given, 2, 3, ("--slots",))
    slots = words.value("--slots")
    match words.plain:
        case ["show", path] if not slots:
            for line in text_lines(read_script(path, content_of(path))):
                print(line)
        case ["make", text, path]:
            script = script_of(text, text_of(text), read_system(slots) if slots else None)
            write_over(path, spelled(script), text, *([slots] if slots else []))
            print(f"ok ticks={script.ticks}")
        case _:
            raise Unusable(f"usage: {USAGE}")
    return WELL
