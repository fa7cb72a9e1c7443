"""What ends a command before its end, and the exit statuses of all commands."""

WELL = 0
UNMET = 1
UNUSABLE = 2


class Unusable(Exception):
    """What cannot be read or done, and why, in one line: the line on standard error, with status 2."""
