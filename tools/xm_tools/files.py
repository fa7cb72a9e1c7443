"""Files, read and written whole. What fails is Unusable, with the file's name."""

import os
from pathlib import Path

from xm_tools.failure import Unusable

# More bytes than any file of xm_run but a report, and more than a report of an hour.
MOST_BYTES = 1 << 31


def content_of(path: str) -> bytes:
    try:
        with open(path, "rb") as file:
            content = file.read(MOST_BYTES + 1)
    except (OSError, ValueError) as error:
        raise Unusable(f"{path}: {reason_of(error)}") from None
    if len(content) > MOST_BYTES:
        raise Unusable(f"{path}: more than {MOST_BYTES} bytes")
    return content


def text_of(path: str) -> str:
    """A text in UTF-8."""
    try:
        return content_of(path).decode("utf-8")
    except UnicodeDecodeError as error:
        raise Unusable(f"{path}: no UTF-8 from byte {error.start} on") from None


def write(path: str, content: bytes) -> None:
    try:
        with open(path, "wb") as file:
            file.write(content)
    except (OSError, ValueError) as error:
        raise Unusable(f"{path}: {reason_of(error)}") from None


def write_over(path: str, content: bytes, *sources: str) -> None:
    """Writes a file that is none of those that were read."""
    for source in sources:
        if os.path.exists(path) and os.path.exists(source) and os.path.samefile(path, source):
            raise Unusable(f"{path}: it is {source}, which is read")
    write(path, content)


def make_folder(path: str) -> None:
    try:
        Path(path).mkdir(parents=True, exist_ok=True)
    except (OSError, ValueError) as error:
        raise Unusable(f"{path}: {reason_of(error)}") from None


def reason_of(error: OSError | ValueError) -> str:
    return (error.strerror if isinstance(error, OSError) else None) or str(error)
